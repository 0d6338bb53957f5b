// Reading by the table of refusals, commands by what they say of copies and rules, plans by the definition of grounded.
#include "policy.h"

#include <string.h>

// ---- reading

enum { NONE = 99 };

static bool is_atom(unsigned code)
{
    return code == 0x11 || code == 0x13;
}

static bool is_leaf(unsigned code)
{
    return is_atom(code) || code == 0x12;
}

bool policy_is_link(unsigned code)
{
    return code == 0x41 || code == 0x42 || code == 0x43;
}

static unsigned operands_of(unsigned code)
{
    if (is_leaf(code)) return 1;
    if (code == 0x21 || code == 0x51) return 0;
    if (code == 0x31 || policy_is_link(code)) return 2;
    return NONE;
}

// Bytes of a command: its own, and operands or a name.
static size_t bytes_of(unsigned code)
{
    return code == 0x51 ? 1 + POLICY_NAME : 1 + operands_of(code);
}

// Whether the condition of a refusal from 5 to 11 holds of the command at an offset, where no lower one does.
static bool is_fault(unsigned number, const uint8_t *sheet, size_t sheet_len, size_t at, const policy *before)
{
    unsigned code = sheet[at], operands = operands_of(code);
    switch (number) {
    case 5: return operands == NONE;
    case 6: return at + bytes_of(code) > sheet_len;
    case 7: return (operands >= 1 && sheet[at + 1] >= POLICY_GROUPS) || (operands == 2 && sheet[at + 2] >= POLICY_GROUPS);
    case 8: return operands == 2 && sheet[at + 1] == sheet[at + 2];
    case 9: return (is_atom(code) && before->atoms == 63) || (code == 0x12 && before->rules == 256);
    case 10: return is_leaf(code) && before->parts == 8;
    default: return (code == 0x21 && before->parts < 2) || ((operands == 2 || code == 0x51) && before->parts == 0);
    }
}

unsigned policy_fault(const uint8_t *sheet, size_t sheet_len, size_t at, const policy *before)
{
    for (unsigned number = 5; number <= 11; number++)
        if (is_fault(number, sheet, sheet_len, at, before)) return number;
    return 0;
}

policy_command policy_command_at(const uint8_t *sheet, size_t at)
{
    unsigned operands = operands_of(sheet[at]);
    policy_command c = {sheet[at], 0, 0, at, at + bytes_of(sheet[at])};
    if (operands >= 1) c.i = sheet[at + 1];
    if (operands == 2) c.j = sheet[at + 2];
    return c;
}

// ---- the policy

static bool is_rule_of(const policy *p, unsigned r, unsigned label)
{
    return p->rule_part[r] == p->parts - 1 && p->rule_label[r] == label;
}

// The atoms of a label, in the newest part.
static uint64_t atoms_of(const policy *p, unsigned label)
{
    uint64_t atoms = 0;
    for (unsigned a = 0; a < p->atoms; a++)
        if (p->atom_part[a] == p->parts - 1 && p->atom_label[a] == label) atoms |= (uint64_t)1 << a;
    return atoms;
}

// A link has no direction (02, Item 11): rules of either label get the atoms of the other.
static void link(policy *p, uint64_t *sets, unsigned i, unsigned j)
{
    for (unsigned r = 0; r < p->rules; r++) {
        if (is_rule_of(p, r, j)) sets[r] |= atoms_of(p, i);
        if (is_rule_of(p, r, i)) sets[r] |= atoms_of(p, j);
    }
}

static void relabel(policy *p, unsigned i, unsigned j)
{
    for (unsigned a = 0; a < p->atoms; a++)
        if (p->atom_part[a] == p->parts - 1 && p->atom_label[a] == i) p->atom_label[a] = (uint8_t)j;
    for (unsigned r = 0; r < p->rules; r++)
        if (p->rule_part[r] == p->parts - 1 && p->rule_label[r] == i) p->rule_label[r] = (uint8_t)j;
}

static void join(policy *p)
{
    for (unsigned a = 0; a < p->atoms; a++)
        if (p->atom_part[a] == p->parts - 1) p->atom_part[a]--;
    for (unsigned r = 0; r < p->rules; r++)
        if (p->rule_part[r] == p->parts - 1) p->rule_part[r]--;
    p->parts--;
}

// The leaf that appeared last, wherever it stands by now. Names of rules are not kept.
static void name(policy *p, size_t at)
{
    if (p->is_atom_last) p->atom_name[p->atoms - 1] = at;
}

void policy_apply(policy *p, const policy_command *c)
{
    switch (c->code) {
    case 0x11: case 0x13:
        if (c->code == 0x13) p->granted |= (uint64_t)1 << p->atoms;
        p->is_atom_last = true;
        p->atom_name[p->atoms] = 0;
        p->atom_label[p->atoms] = (uint8_t)c->i;
        p->atom_part[p->atoms++] = (uint8_t)p->parts++;
        break;
    case 0x12:
        p->is_atom_last = false;
        p->head[p->rules] = p->positive[p->rules] = p->negative[p->rules] = 0;
        p->rule_label[p->rules] = (uint8_t)c->i;
        p->rule_part[p->rules++] = (uint8_t)p->parts++;
        break;
    case 0x21: join(p); break;
    case 0x31: relabel(p, c->i, c->j); break;
    case 0x41: link(p, p->head, c->i, c->j); break;
    case 0x42: link(p, p->positive, c->i, c->j); break;
    case 0x43: link(p, p->negative, c->i, c->j); break;
    case 0x51: name(p, c->offset + 1); break;
    }
    if (p->parts > p->most_parts) p->most_parts = p->parts;
}

bool policy_links_back(const policy *p, const policy_command *c)
{
    if (!policy_is_link(c->code) || atoms_of(p, c->j) == 0) return false;
    for (unsigned r = 0; r < p->rules; r++)
        if (is_rule_of(p, r, c->i)) return true;
    return false;
}

void policy_build(policy *p, const uint8_t *sheet, size_t sheet_len)
{
    memset(p, 0, sizeof *p);
    for (size_t at = 0; at < sheet_len;) {
        policy_command c = policy_command_at(sheet, at);
        policy_apply(p, &c);
        at = c.next;
    }
}

bool policy_has_link_back(const uint8_t *sheet, size_t sheet_len)
{
    policy p = {0};
    for (size_t at = 0; at < sheet_len;) {
        policy_command c = policy_command_at(sheet, at);
        if (policy_links_back(&p, &c)) return true;
        policy_apply(&p, &c);
        at = c.next;
    }
    return false;
}

size_t policy_unnamed(uint8_t *to, const uint8_t *sheet, size_t sheet_len)
{
    size_t n = 0;
    for (size_t at = 0; at < sheet_len;) {
        policy_command c = policy_command_at(sheet, at);
        if (c.code != 0x51) memcpy(to + n, sheet + at, c.next - at), n += c.next - at;
        at = c.next;
    }
    return n;
}

bool policy_is_model(const policy *p, uint64_t x)
{
    for (unsigned r = 0; r < p->rules; r++) {
        bool lacks_needed = (p->positive[r] & ~x) != 0, is_barred = (p->negative[r] & x) != 0, has_head = (p->head[r] & x) != 0;
        if (!lacks_needed && !is_barred && !has_head) return false;
    }
    return true;
}

// Whether y meets every rule reduced by x.
static bool is_reduct_model(const policy *p, uint64_t x, uint64_t y)
{
    for (unsigned r = 0; r < p->rules; r++) {
        if ((p->negative[r] & x) != 0) continue; // struck out
        if ((p->positive[r] & ~y) == 0 && (p->head[r] & y) == 0) return false;
    }
    return true;
}

bool policy_is_smaller(const policy *p, uint64_t x, uint64_t y)
{
    return y != x && (y & ~x) == 0 && (y & p->granted) == (x & p->granted);
}

bool policy_is_answer_set(const policy *p, uint64_t x)
{
    if (!policy_is_model(p, x)) return false;
    for (uint64_t y = x; y != 0;) {
        y = (y - 1) & x; // every proper subset, down to the empty one
        if (policy_is_smaller(p, x, y) && is_reduct_model(p, x, y)) return false;
    }
    return true;
}

void policy_grant_half(uint8_t *sheet, size_t sheet_len, unsigned first)
{
    unsigned copies = 0;
    for (size_t at = 0; at < sheet_len; at = policy_command_at(sheet, at).next)
        if (sheet[at] == 0x11 && copies++ % 2 == first) sheet[at] = 0x13;
}

void policy_exchange(uint8_t *sheet, size_t sheet_len)
{
    for (size_t at = 0; at < sheet_len; at = policy_command_at(sheet, at).next) {
        policy_command c = policy_command_at(sheet, at);
        if (policy_is_link(c.code)) sheet[at + 1] = (uint8_t)c.j, sheet[at + 2] = (uint8_t)c.i;
    }
}

bool policy_obeys(uint64_t x, uint64_t pins_in, uint64_t pins_out)
{
    return (pins_in & ~x) == 0 && (pins_out & x) == 0;
}
