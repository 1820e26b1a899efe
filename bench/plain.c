/* A plain C reader of document 01, with requests 5, 3, 1 and 7 of document 02, byte by byte: the yardstick. It keeps
   the port's contract and nothing of its code. A check is the UTF-8 test and one pass; a read is a check, then the same
   pass with a table. No trick that a first version in C would not have: keep it so. A function gives 1 where it could
   go on, 0 where the reader holds a refusal. */
#include "plain.h"
#include "ranges.h"
#include <string.h>

enum { END = 256, LIMIT = 1048576, DEPTH = 64 };
static const uint32_t NONE = 4294967295u;

typedef struct {
    const uint8_t *s;
    size_t n, at;
    int left;       /* levels that may still be entered */
    uint32_t *t;    /* null: only count */
    size_t k;       /* records so far */
    uint32_t depth; /* ancestors of the next record */
    uint32_t number;
    size_t *values;
} R;

typedef struct {
    size_t a, b;
} Span;

static int no(R *r, uint32_t number, size_t a, size_t b, size_t c, size_t d) {
    r->number = number;
    r->values[0] = a;
    r->values[1] = b;
    r->values[2] = c;
    r->values[3] = d;
    return 0;
}

static int no_at(R *r, uint32_t number, size_t p) {
    return no(r, number, p, p, 0, 0);
}

static inline int byte(R *r, size_t i) {
    return i < r->n ? r->s[i] : END;
}

static inline int here(R *r) {
    return byte(r, r->at);
}

/* Something else is needed here. */
static int need(R *r) {
    return no_at(r, here(r) == END ? 4 : 3, r->at);
}

static int expect(R *r, int b) {
    if (here(r) != b) return need(r);
    r->at++;
    return 1;
}

/* ---- bytes */

static inline int among(int b, int low, int high) {
    return b >= low && b <= high;
}

/* The length of the sequence that begins at p; 0 where none does. */
static size_t sequence(const uint8_t *s, size_t n, size_t p) {
    uint8_t b = s[p], low = 0x80, high = 0xBF;
    size_t k;
    if (among(b, 0xC2, 0xDF)) k = 2;
    else if (b == 0xE0) k = 3, low = 0xA0;
    else if (b == 0xED) k = 3, high = 0x9F;
    else if (among(b, 0xE1, 0xEF)) k = 3;
    else if (b == 0xF0) k = 4, low = 0x90;
    else if (among(b, 0xF1, 0xF3)) k = 4;
    else if (b == 0xF4) k = 4, high = 0x8F;
    else return 0;
    if (p + 1 >= n || !among(s[p + 1], low, high)) return 0;
    if (k > 2 && (p + 2 >= n || (s[p + 2] & 0xC0) != 0x80)) return 0;
    if (k > 3 && (p + 3 >= n || (s[p + 3] & 0xC0) != 0x80)) return 0;
    return k;
}

static int utf8(R *r) {
    const uint8_t *s = r->s;
    size_t n = r->n, p = 0;
    while (p < n) {
        if (s[p] < 128) {
            p++;
            continue;
        }
        size_t k = sequence(s, n, p);
        if (k == 0) return no_at(r, 2, p);
        p += k;
    }
    return 1;
}

static inline int opens(int b) {
    return among(b, 'a', 'z') || among(b, 'A', 'Z') || b == '_' || b == '$';
}

static inline int digit(int b) {
    return among(b, '0', '9');
}

static inline int in_word(int b) {
    return opens(b) || digit(b);
}

/* ---- blanks */

static int block_comment(R *r) {
    for (size_t p = r->at + 2; p < r->n; p++)
        if (r->s[p] == '*' && byte(r, p + 1) == '/') {
            r->at = p + 2;
            return 1;
        }
    return no_at(r, 17, r->at);
}

/* U+2028 or U+2029. The input is UTF-8 by now, so the bytes behind a lead byte are there. */
static int wide_line_end(const uint8_t *s) {
    return s[0] == 0xE2 && s[1] == 0x80 && (s[2] == 0xA8 || s[2] == 0xA9);
}

static void line_comment(R *r) {
    size_t p = r->at + 2;
    for (; p < r->n; p++) {
        uint8_t b = r->s[p];
        if (b == '\n' || b == '\r' || wide_line_end(r->s + p)) break;
    }
    r->at = p;
}

/* The length of the blank beyond ASCII that begins here; 0 where none does. */
static size_t wide_blank(const uint8_t *s) {
    switch (s[0]) {
    case 0xC2: return s[1] == 0xA0 ? 2 : 0;                 /* U+00A0 */
    case 0xE1: return s[1] == 0x9A && s[2] == 0x80 ? 3 : 0; /* U+1680 */
    case 0xE2:
        if (s[1] == 0x81) return s[2] == 0x9F ? 3 : 0;                           /* U+205F */
        if (s[1] == 0x80 && (among(s[2], 0x80, 0x8A) || s[2] == 0xAF)) return 3; /* U+2000 to U+200A, U+202F */
        return wide_line_end(s) ? 3 : 0;
    case 0xE3: return s[1] == 0x80 && s[2] == 0x80 ? 3 : 0; /* U+3000 */
    case 0xEF: return s[1] == 0xBB && s[2] == 0xBF ? 3 : 0; /* U+FEFF */
    default: return 0;
    }
}

static int blanks(R *r) {
    for (;;) {
        int b = here(r);
        if (among(b, 9, 13) || b == ' ') r->at++;
        else if (among(b, 0x80, 0xFF)) {
            size_t k = wide_blank(r->s + r->at);
            if (k == 0) return 1;
            r->at += k;
        } else if (b != '/') return 1;
        else if (byte(r, r->at + 1) == '*') {
            if (!block_comment(r)) return 0;
        } else if (byte(r, r->at + 1) == '/') line_comment(r);
        else return 1;
    }
}

/* ---- characters of names */

/* The code of the character beyond ASCII that begins here, and its length. The input is UTF-8 by now. */
static uint32_t code(const uint8_t *s, size_t *k) {
    *k = s[0] < 0xE0 ? 2 : s[0] < 0xF0 ? 3 : 4;
    uint32_t c = s[0] & (0xFF >> (*k + 1));
    for (size_t i = 1; i < *k; i++) c = c << 6 | (s[i] & 0x3F);
    return c;
}

/* Whether a code is in one of so many ranges, by halves. */
static int in_ranges(const uint32_t *ranges, size_t n, uint32_t c) {
    size_t low = 0, high = n;
    while (low < high) {
        size_t m = (low + high) / 2;
        if (c < ranges[2 * m]) high = m;
        else if (c > ranges[2 * m + 1]) low = m + 1;
        else return 1;
    }
    return 0;
}

/* The length of the character beyond ASCII that begins here, if it opens a part of a name; else 0. */
static size_t wide_first(const uint8_t *s) {
    size_t k;
    uint32_t c = code(s, &k);
    return in_ranges(START, sizeof START / (2 * sizeof *START), c) ? k : 0;
}

/* The same, if it may stand behind the first one. */
static size_t wide_later(const uint8_t *s) {
    size_t k;
    uint32_t c = code(s, &k);
    if (c == 0x200C || c == 0x200D) return k;
    return in_ranges(CONTINUE, sizeof CONTINUE / (2 * sizeof *CONTINUE), c) ? k : 0;
}

/* The length of the character at p that opens a part of a name; 0 where none does. */
static inline size_t first_length(R *r, size_t p) {
    int b = byte(r, p);
    if (opens(b)) return 1;
    return among(b, 0x80, 0xFF) ? wide_first(r->s + p) : 0;
}

/* The same of one that may stand behind it. */
static inline size_t later_length(R *r, size_t p) {
    int b = byte(r, p);
    if (in_word(b) || b == '-') return 1;
    return among(b, 0x80, 0xFF) ? wide_later(r->s + p) : 0;
}

/* ---- records and names */

static inline void put(R *r, size_t i, uint32_t kind, size_t a, size_t b, uint32_t parent, uint32_t extra) {
    if (!r->t) return;
    uint32_t *w = r->t + ROW * i;
    w[0] = kind;
    w[1] = a;
    w[2] = b;
    w[3] = parent;
    w[4] = r->k;
    w[5] = extra;
    w[6] = r->depth;
}

static int part(R *r, Span *p, int *dash) {
    size_t k = first_length(r, r->at);
    if (k == 0) return need(r);
    p->a = r->at;
    r->at += k;
    *dash = 0;
    for (;;) {
        int b = here(r);
        if (b == '-') *dash = 1;
        else if (!in_word(b)) {
            if (!among(b, 0x80, 0xFF)) break;
            k = wide_later(r->s + r->at);
            if (k == 0) break;
            r->at += k;
            continue;
        }
        r->at++;
    }
    p->b = r->at;
    return 1;
}

static int is_this(R *r, Span p) {
    return p.b - p.a == 4 && !memcmp(r->s + p.a, "this", 4);
}

static uint32_t kind_of(R *r, Span p, int dash) {
    uint8_t b = r->s[p.a];
    if (!dash && (among(b, 'A', 'Z') || b == '_' || b == '$' || b >= 0x80)) return 4;
    return !dash && is_this(r, p) ? 5 : 3;
}

/* A namespaced name whose first part is read, from its colon on. */
static int namespaced(R *r, Span first, int dash, size_t me, uint32_t parent, Span *out) {
    Span second;
    int second_dash;
    size_t x = r->k++;
    r->depth++;
    put(r, x, 16, first.a, first.b, me, dash);
    r->at++;
    if (!blanks(r) || !part(r, &second, &second_dash)) return 0;
    size_t y = r->k++;
    put(r, y, 16, second.a, second.b, me, second_dash);
    r->depth--;
    put(r, me, 6, first.a, second.b, parent, 0);
    *out = (Span){first.a, second.b};
    return 1;
}

/* A member name whose first part is read, from its first dot on. */
static int member(R *r, Span first, int dash, size_t me, uint32_t parent, Span *out) {
    Span p = first;
    size_t object = r->k++;
    r->depth++;
    put(r, object, is_this(r, first) ? 5 : 4, first.a, first.b, me, dash);
    while (here(r) == '.') {
        r->at++;
        if (!blanks(r) || !part(r, &p, &dash)) return 0;
        if (dash) return no(r, 10, p.a, p.b, 0, 0);
        size_t x = r->k++;
        put(r, x, 16, p.a, p.b, me, 0);
        if (!blanks(r)) return 0;
    }
    r->at = p.b;
    r->depth--;
    put(r, me, 7, first.a, p.b, parent, 0);
    *out = (Span){first.a, p.b};
    return 1;
}

static int element_name(R *r, uint32_t parent, Span *out) {
    int dash;
    size_t me = r->k++;
    if (!part(r, out, &dash) || !blanks(r)) return 0;
    if (here(r) == ':') return namespaced(r, *out, dash, me, parent, out);
    if (here(r) == '.') return member(r, *out, dash, me, parent, out);
    r->at = out->b;
    if (r->t) put(r, me, kind_of(r, *out, dash), out->a, out->b, parent, dash);
    return 1;
}

static int attribute_name(R *r, uint32_t parent) {
    Span p;
    int dash;
    size_t me = r->k++;
    if (!part(r, &p, &dash) || !blanks(r)) return 0;
    if (here(r) == ':') return namespaced(r, p, dash, me, parent, &p);
    r->at = p.b;
    put(r, me, 16, p.a, p.b, parent, dash);
    return 1;
}

/* Behind the blanks at p, which were read before and hold no trouble. */
static size_t behind(const R *r, size_t p) {
    R q = *r;
    q.at = p;
    blanks(&q);
    return q.at;
}

static size_t part_end(R *r, size_t p, size_t end) {
    size_t k;
    while (p < end && (k = later_length(r, p))) p += k;
    return p;
}

static int same_name(R *r, Span x, Span y) {
    size_t i = x.a, j = y.a;
    for (;;) {
        size_t p = part_end(r, i, x.b), q = part_end(r, j, y.b);
        if (p - i != q - j || memcmp(r->s + i, r->s + j, p - i)) return 0;
        if (p == x.b || q == y.b) return p == x.b && q == y.b;
        p = behind(r, p);
        q = behind(r, q);
        if (r->s[p] != r->s[q]) return 0;
        i = behind(r, p + 1);
        j = behind(r, q + 1);
    }
}

/* ---- expressions */

static const char *const REFUSED[] = {
    "do",      "if",       "in",       "for",      "new",       "try",       "var",        "let",       "case",
    "else",    "enum",     "void",     "with",     "await",     "break",     "catch",      "class",     "const",
    "super",   "throw",    "while",    "yield",    "delete",    "export",    "import",     "return",    "switch",
    "typeof",  "static",   "public",   "default",  "extends",   "finally",   "package",    "private",   "continue",
    "debugger", "function", "interface", "protected", "instanceof", "implements"};

static int refused(const uint8_t *s, size_t n) {
    if (n < 2 || n > 10) return 0;
    for (size_t i = 0; i < sizeof REFUSED / sizeof *REFUSED; i++)
        if (REFUSED[i][0] == s[0] && strlen(REFUSED[i]) == n && !memcmp(REFUSED[i], s, n)) return 1;
    return 0;
}

static int element(R *r, uint32_t parent);
static int children(R *r, uint32_t parent);
static int conditional(R *r, uint32_t parent);

static int deeper(R *r) {
    if (!r->left) return no_at(r, 14, r->at);
    r->left--;
    return 1;
}

static int group(R *r, uint32_t parent, int close) {
    if (!deeper(r)) return 0;
    r->at++;
    if (!blanks(r) || !conditional(r, parent) || !blanks(r) || !expect(r, close)) return 0;
    r->left++;
    return 1;
}

static void word(R *r) {
    while (in_word(here(r))) r->at++;
}

static void digits(R *r) {
    while (digit(here(r))) r->at++;
}

static int number(R *r) {
    size_t a = r->at++;
    if (r->s[a] != '0') digits(r);
    if (here(r) == '.') {
        r->at++;
        if (!digit(here(r))) return no_at(r, 3, a);
        digits(r);
    }
    return in_word(here(r)) ? no_at(r, 3, a) : 1;
}

static int string(R *r, int quote) {
    size_t a = r->at++;
    for (;; r->at++) {
        int b = here(r);
        if (b == END) return no_at(r, 18, a);
        if (b == quote) break;
        if (b == '\\') return no_at(r, 3, r->at);
        if (b == '\n' || b == '\r') return no(r, 3, a, r->at, 0, 0);
    }
    r->at++;
    return 1;
}

static int primary(R *r, uint32_t parent) {
    int b = here(r);
    size_t a = r->at;
    if (opens(b)) {
        r->at++;
        word(r);
        return refused(r->s + a, r->at - a) ? no_at(r, 3, a) : 1;
    }
    if (digit(b)) return number(r);
    if (b == '"' || b == '\'') return string(r, b);
    return b == '(' ? group(r, parent, ')') : need(r);
}

static int arguments(R *r, uint32_t parent) {
    for (;;) {
        if (!conditional(r, parent) || !blanks(r)) return 0;
        if (here(r) != ',') return expect(r, ')');
        r->at++;
        if (!blanks(r)) return 0;
    }
}

static int call(R *r, uint32_t parent) {
    if (!deeper(r)) return 0;
    r->at++;
    if (!blanks(r)) return 0;
    if (here(r) == ')') r->at++;
    else if (!arguments(r, parent)) return 0;
    r->left++;
    return 1;
}

static int dotted(R *r) {
    r->at++;
    if (!blanks(r)) return 0;
    if (!opens(here(r))) return need(r);
    word(r);
    return 1;
}

static int postfix(R *r, uint32_t parent) {
    if (!primary(r, parent)) return 0;
    for (;;) {
        size_t e = r->at;
        if (!blanks(r)) return 0;
        int b = here(r);
        if (b == '.') {
            if (!dotted(r)) return 0;
        } else if (b == '[') {
            if (!group(r, parent, ']')) return 0;
        } else if (b == '(') {
            if (!call(r, parent)) return 0;
        } else {
            r->at = e;
            return 1;
        }
    }
}

/* What may not stand behind an element that isn't a child; n is the number for `<<` and `<=`. */
static int no_sibling(R *r, uint32_t n) {
    size_t e = r->at;
    if (!blanks(r)) return 0;
    if (here(r) == '<') {
        int b = byte(r, r->at + 1);
        if (b == '<' || b == '=') return no_at(r, n, r->at);
        return no(r, 12, r->at, r->at + 1, 0, 0);
    }
    r->at = e;
    return 1;
}

static int unary(R *r, uint32_t parent) {
    int b = here(r);
    if (b == '-' && byte(r, r->at + 1) == '-') return no_at(r, 3, r->at);
    if (b == '!' || b == '-') {
        if (!deeper(r)) return 0;
        r->at++;
        if (!blanks(r) || !unary(r, parent)) return 0;
        r->left++;
        return 1;
    }
    if (b == '<') return element(r, parent) && no_sibling(r, 3);
    return postfix(r, parent);
}

/* Unaries joined by operators: no record tells how they bind. */
static int either(R *r, uint32_t parent) {
    if (!unary(r, parent)) return 0;
    for (;;) {
        size_t e = r->at;
        if (!blanks(r)) return 0;
        int b = here(r), c = byte(r, r->at + 1);
        switch (b) {
        case '|':
        case '&':
            if (c != b) return no_at(r, 3, r->at);
            r->at += 2;
            break;
        case '+':
        case '-':
        case '*':
            if (c == b) return no_at(r, 3, r->at);
            r->at++;
            break;
        default:
            r->at = e;
            return 1;
        }
        if (!blanks(r) || !unary(r, parent)) return 0;
    }
}

static int conditional(R *r, uint32_t parent) {
    if (!either(r, parent)) return 0;
    size_t e = r->at;
    if (!blanks(r)) return 0;
    if (here(r) != '?') {
        r->at = e;
        return 1;
    }
    int b = byte(r, r->at + 1);
    if (b == '.' || b == '?') return no_at(r, 3, r->at);
    if (!deeper(r)) return 0;
    r->at++;
    if (!blanks(r) || !conditional(r, parent) || !blanks(r) || !expect(r, ':')) return 0;
    if (!blanks(r) || !conditional(r, parent)) return 0;
    r->left++;
    return 1;
}

static int expression(R *r, uint32_t parent) {
    size_t me = r->k++, a = r->at;
    r->depth++;
    if (!conditional(r, me)) return 0;
    r->depth--;
    put(r, me, 15, a, r->at, parent, 0);
    return 1;
}

/* ---- braces, attributes, elements */

enum where { CHILD, VALUE, ATTRIBUTE };

static int empty_braces(R *r, size_t start, uint32_t parent, enum where where) {
    if (where == VALUE) return no(r, 11, start, r->at + 1, 0, 0);
    size_t me = r->k++, x = r->k++;
    r->depth++;
    put(r, x, 12, start + 1, r->at, me, 0);
    r->depth--;
    r->at++;
    put(r, me, 11, start, r->at, parent, 0);
    return 1;
}

static int spread(R *r, size_t start, uint32_t parent, enum where where) {
    if (here(r) != '.') return need(r);
    if (byte(r, r->at + 1) != '.' || byte(r, r->at + 2) != '.') return no_at(r, 3, r->at);
    size_t me = r->k++;
    r->depth++;
    r->at += 3;
    if (!blanks(r) || !expression(r, me) || !blanks(r) || !expect(r, '}')) return 0;
    r->depth--;
    put(r, me, where == ATTRIBUTE ? 9 : 13, start, r->at, parent, 0);
    return 1;
}

static int container(R *r, size_t start, uint32_t parent) {
    size_t me = r->k++;
    r->depth++;
    if (!expression(r, me) || !blanks(r)) return 0;
    if (here(r) == ',') return no(r, 16, r->at, r->at + 1, 0, 0);
    if (!expect(r, '}')) return 0;
    r->depth--;
    put(r, me, 11, start, r->at, parent, 0);
    return 1;
}

static int braces(R *r, uint32_t parent, enum where where) {
    size_t start = r->at;
    int good;
    if (!deeper(r)) return 0;
    r->at++;
    if (!blanks(r)) return 0;
    int b = here(r);
    if (b == '}' && where != ATTRIBUTE) good = empty_braces(r, start, parent, where);
    else if (where == ATTRIBUTE || (where == CHILD && b == '.')) good = spread(r, start, parent, where);
    else good = container(r, start, parent);
    if (!good) return 0;
    r->left++;
    return 1;
}

static int quoted(R *r, uint32_t parent, int quote) {
    size_t a = r->at++, x = r->k++;
    while (r->at < r->n && r->s[r->at] != quote) r->at++;
    if (r->at >= r->n) return no_at(r, 5, a);
    r->at++;
    put(r, x, 10, a, r->at, parent, 0);
    return 1;
}

static int value(R *r, uint32_t parent) {
    int b = here(r);
    if (b == '"' || b == '\'') return quoted(r, parent, b);
    if (b == '{') return braces(r, parent, VALUE);
    if (b == '<') return element(r, parent) && no_sibling(r, 3);
    return need(r);
}

static int attribute(R *r, uint32_t parent) {
    if (here(r) == '{') return braces(r, parent, ATTRIBUTE);
    size_t me = r->k++, start = r->at;
    r->depth++;
    if (!attribute_name(r, me)) return 0;
    size_t e = r->at;
    if (!blanks(r)) return 0;
    if (here(r) == '=') {
        r->at++;
        if (!blanks(r) || !value(r, me)) return 0;
    } else
        r->at = e;
    r->depth--;
    put(r, me, 8, start, r->at, parent, 0);
    return 1;
}

/* The rest of an opening tag, from its name on; *paired: whether content follows. */
static int opening(R *r, size_t start, uint32_t me, Span *name, int *paired) {
    size_t tag = r->k++;
    r->depth++;
    *paired = 1;
    if (here(r) != '>') {
        if (!element_name(r, tag, name)) return 0;
        for (;;) {
            if (!blanks(r)) return 0;
            if (here(r) == '/' || here(r) == '>') break;
            if (!attribute(r, tag)) return 0;
        }
    }
    if (here(r) == '/') {
        *paired = 0;
        r->at++;
        if (!blanks(r)) return 0;
    }
    if (!expect(r, '>')) return 0;
    r->depth--;
    put(r, tag, 18, start, r->at, me, 0);
    return 1;
}

/* A closing tag, held against the opening tag's name, or against the fragment `open` where that has none. */
static int closing(R *r, uint32_t me, int fragment, Span name, Span open) {
    size_t q = r->at;
    if (!expect(r, '<') || !blanks(r) || !expect(r, '/') || !blanks(r)) return 0;
    size_t tag = r->k++;
    r->depth++;
    if (here(r) == '>') {
        r->at++;
        if (!fragment) return no(r, 9, name.a, name.b, q, r->at);
    } else {
        Span end;
        if (!element_name(r, tag, &end) || !blanks(r) || !expect(r, '>')) return 0;
        if (fragment) return no(r, 8, open.a, open.b, end.a, end.b);
        if (!same_name(r, name, end)) return no(r, 7, name.a, name.b, end.a, end.b);
    }
    r->depth--;
    put(r, tag, 17, q, r->at, me, 0);
    return 1;
}

static int element(R *r, uint32_t parent) {
    size_t start = r->at++;
    if (!blanks(r)) return 0;
    int b = here(r), paired;
    if (b != '>' && !first_length(r, r->at)) return need(r);
    if (!r->left) return no_at(r, 14, start);
    r->left--;
    int fragment = b == '>';
    size_t me = r->k++;
    r->depth++;
    Span name = {0, 0};
    if (!opening(r, start, me, &name, &paired)) return 0;
    if (paired) {
        Span open = {start, r->at};
        if (!children(r, me) || !closing(r, me, fragment, name, open)) return 0;
    }
    r->depth--;
    put(r, me, fragment ? 2 : 1, start, r->at, parent, paired && !fragment);
    r->left++;
    return 1;
}

static void text(R *r, uint32_t parent) {
    size_t start = r->at, me = r->k++;
    int b;
    while (b = here(r), b != END && b != '<' && b != '>' && b != '{' && b != '}') r->at++;
    put(r, me, 14, start, r->at, parent, 0);
}

/* Children up to the end of input or to `</`, which is left for the caller. */
static int children(R *r, uint32_t parent) {
    for (;;) {
        int b = here(r);
        if (b == END) return 1;
        if (b == '<') {
            size_t p = r->at++;
            if (!blanks(r)) return 0;
            int c = here(r);
            r->at = p;
            if (c == '/') return 1;
            if (!element(r, parent)) return 0;
        } else if (b == '{') {
            if (!braces(r, parent, CHILD)) return 0;
        } else if (b == '>' || b == '}')
            return no_at(r, 6, r->at);
        else
            text(r, parent);
    }
}

/* ---- the calls */

static int run(R *r) {
    if (!children(r, NONE)) return 0;
    return here(r) == END ? 1 : no_at(r, 3, r->at);
}

static int stage(R *r) {
    if (!blanks(r)) return 0;
    if (here(r) != '<') return need(r);
    if (!element(r, NONE) || !no_sibling(r, 13) || !blanks(r)) return 0;
    return here(r) == END ? 1 : no_at(r, 13, r->at);
}

typedef int Reading(R *r);

static uint32_t pass(Reading *reading, R *r, uint32_t *table) {
    r->at = r->k = 0;
    r->left = DEPTH;
    r->depth = 0;
    r->t = table;
    if (!reading(r)) return r->number;
    no(r, 0, r->k, 0, 0, 0);
    return 0;
}

static uint32_t check(Reading *reading, R *r) {
    if (r->n > LIMIT) {
        no(r, 1, 0, 0, 0, 0);
        return 1;
    }
    return utf8(r) ? pass(reading, r, NULL) : r->number;
}

static uint32_t read(Reading *reading, R *r, uint32_t *table, size_t words) {
    uint32_t number = check(reading, r);
    if (number) return number;
    if (words / ROW < r->k) return 15; /* its first value is the count */
    return pass(reading, r, table);
}

uint32_t PLAIN(check_stage)(const uint8_t *input, size_t length, size_t values[4]) {
    R r = {.s = input, .n = length, .values = values};
    return check(stage, &r);
}

uint32_t PLAIN(check_run)(const uint8_t *input, size_t length, size_t values[4]) {
    R r = {.s = input, .n = length, .values = values};
    return check(run, &r);
}

uint32_t PLAIN(read_stage)(const uint8_t *input, size_t length, uint32_t *table, size_t words, size_t values[4]) {
    R r = {.s = input, .n = length, .values = values};
    return read(stage, &r, table, words);
}

uint32_t PLAIN(read_run)(const uint8_t *input, size_t length, uint32_t *table, size_t words, size_t values[4]) {
    R r = {.s = input, .n = length, .values = values};
    return read(run, &r, table, words);
}
