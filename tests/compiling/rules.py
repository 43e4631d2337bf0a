"""The rules of crates/c_meaning, one by one: what small functions answer, and which have no result, worked out by hand from C99.

The functions are as they are printed of trees (crates/c_text): a local a line, parts of structs by pointer, calls as lines of their own.
What has a result by the rules has it by gcc too.
"""
from compiling.making import SANITIZED, Differs
from compiling.meaning import Meaning, Undefined
from compiling.reading import Unread, read

TOLD = '"%d"'
# What has no result; and what isn't read, since no printed text has it, or a compiler refuses it.
NOTHING, REFUSED = "no result", "refused"
LEAST, GREATEST = -(2**63), 2**63 - 1
BEFORE = """
#include <stdbool.h>
#include <stdint.h>

#ifdef __cplusplus
#define P_of(T) T
#define P_zeros(T) T()
#else
#define P_of(T) (struct T)
#define P_zeros(T) (struct T){0}
#endif

struct P_t0 {
    int64_t m0;
    bool m1;
};

struct P_t1 {
    struct P_t0 m0;
    int64_t m1[3];
    struct P_t0 m2[2][2];
};

static int64_t P_f0(const struct P_t0 *r0)
{
    return r0->m0;
}

static void P_f1(struct P_t0 *r0, const struct P_t0 *r1)
{
    r0->m0 = r1->m0;
    return;
}

static bool P_f2(const struct P_t1 *r0)
{
    (void)r0;
    return true;
}

static int64_t P_f3(void)
{
    return INT64_C(8);
}

"""
INT = "static int64_t P_f4(int64_t r0)"
PAIR = "    struct P_t0 r1;\n    r1.m0 = r0;\n    r1.m1 = true;\n"
FIXED = "    const struct P_t1 r1 = {{r0, true}, {r0, r0}, {{P_zeros(P_t0)}}};\n"
WHOLE = "    struct P_t1 r1;\n    r1 = P_zeros(P_t1);\n    r1.m0.m0 = r0;\n"
LOOP = "    for (uint32_t r1 = 0; (r1 < UINT32_C(5)) && true; r1++) {\n"
# The head of a function, its lines, what it gets, and what it answers.
ROWS = [
    # numbers
    (INT, "    return r0 + INT64_C(1);\n", 5, 6),
    (INT, "    return r0 + INT64_C(1);\n", GREATEST, NOTHING),
    (INT, "    return r0 - INT64_C(1);\n", LEAST, NOTHING),
    (INT, "    return r0 * INT64_C(-1);\n", LEAST, NOTHING),
    (INT, "    return r0 * INT64_C(3);\n", -5, -15),
    (INT, "    return r0 % INT64_C(4);\n", 11, 3),
    (INT, "    return r0 % INT64_C(4);\n", -11, NOTHING),
    (INT, "    return INT64_C(4) % r0;\n", 0, NOTHING),
    (INT, "    return (int64_t)((uint64_t)r0 + UINT64_C(2));\n", -1, 1),
    (INT, "    return (int64_t)((uint64_t)r0 - UINT64_C(2));\n", 1, NOTHING),
    (INT, "    return (int64_t)((uint64_t)r0 * UINT64_C(4294967296));\n", 4294967296, 0),
    (INT, "    return INT64_MIN + r0;\n", 7, LEAST + 7),
    ("static uint32_t P_f4(uint32_t r0)", "    return r0 + UINT32_C(1);\n", 2**32 - 2, 2**32 - 1),
    ("static uint32_t P_f4(uint32_t r0)", "    return r0 + UINT32_C(1);\n", 2**32 - 1, NOTHING),
    ("static uint32_t P_f4(uint32_t r0)", "    return r0 - UINT32_C(1);\n", 0, NOTHING),
    ("static uint8_t P_f4(uint8_t r0)", "    return r0 + UINT8_C(1);\n", 1, REFUSED),
    ("static uint32_t P_f4(int64_t r0)", "    return (uint32_t)r0;\n", 2**32 - 1, 2**32 - 1),
    ("static uint32_t P_f4(int64_t r0)", "    return (uint32_t)r0;\n", 2**32, NOTHING),
    ("static uint8_t P_f4(int64_t r0)", "    return (uint8_t)r0;\n", 256, NOTHING),
    ("static int64_t P_f4(uint64_t r0)", "    return (int64_t)r0;\n", 2**63, NOTHING),
    ("static bool P_f4(int64_t r0)", "    return r0 < INT64_C(-3);\n", -4, True),
    ("static bool P_f4(uint64_t r0)", "    return r0 <= UINT64_C(3);\n", 2**64 - 1, False),
    ("static bool P_f4(int64_t r0)", "    return r0 == INT64_C(4);\n", 4, True),
    ("static bool P_f4(int64_t r0)", "    return r0 == UINT64_C(4);\n", 4, REFUSED),
    ("static int64_t P_f4(bool r0)", "    return (int64_t)r0;\n", True, REFUSED),
    # truths: the other side is looked at only where it matters
    ("static bool P_f4(bool r0)", "    return !r0;\n", True, False),
    ("static bool P_f4(bool r0)", "    return r0 && (INT64_C(1) == (INT64_C(1) % INT64_C(0)));\n", False, False),
    ("static bool P_f4(bool r0)", "    return r0 && (INT64_C(1) == (INT64_C(1) % INT64_C(0)));\n", True, NOTHING),
    ("static bool P_f4(bool r0)", "    return r0 || (INT64_C(1) == (INT64_C(1) % INT64_C(0)));\n", True, True),
    ("static bool P_f4(bool r0)", "    return r0 || (INT64_C(1) == (INT64_C(1) % INT64_C(0)));\n", False, NOTHING),
    ("static int64_t P_f4(bool r0)", "    return r0 ? INT64_C(1) : (INT64_C(1) % INT64_C(0));\n", True, 1),
    ("static int64_t P_f4(bool r0)", "    return r0 ? INT64_C(1) : (INT64_C(1) % INT64_C(0));\n", False, NOTHING),
    ("static int64_t P_f4(bool r0)", "    return r0 ? INT64_C(1) : UINT64_C(2);\n", True, REFUSED),
    ("static bool P_f4(int64_t r0)", "    return !r0;\n", 0, REFUSED),
    # what is not set has no value, but a struct has that holds it
    (INT, "    int64_t r1;\n    if (r0 == INT64_C(0)) {\n        r1 = INT64_C(5);\n    }\n    return r1;\n", 0, 5),
    (INT, "    int64_t r1;\n    if (r0 == INT64_C(0)) {\n        r1 = INT64_C(5);\n    }\n    return r1;\n", 1, NOTHING),
    (INT, "    struct P_t0 r1;\n    r1.m0 = r0;\n    const struct P_t0 r2 = r1;\n    return r2.m0;\n", 7, 7),
    (INT, "    struct P_t0 r1;\n    r1.m0 = r0;\n    const struct P_t0 r2 = r1;\n    return r2.m1 ? r0 : INT64_C(0);\n", 7, NOTHING),
    (INT, "    struct P_t0 r1;\n    const int64_t r2 = P_f0(&r1);\n    return r2;\n", 7, NOTHING),
    (INT, "    int64_t r1;\n    const struct P_t0 r2 = {r1, true};\n    return r2.m1 ? r0 : INT64_C(0);\n", 7, NOTHING),
    (INT, "    int64_t r1;\n    r1 = r0;\n    const struct P_t0 r2 = {r1, true};\n    return r2.m1 ? r0 : INT64_C(0);\n", 7, 7),
    # structs and arrays
    (INT, "    const struct P_t0 r1 = {r0, true};\n    return r1.m1 ? r1.m0 : INT64_C(0);\n", 3, 3),
    (INT, "    struct P_t0 r1;\n    r1 = P_of(P_t0){r0, false};\n    r1 = P_zeros(P_t0);\n    return r1.m0;\n", 3, 0),
    (INT, WHOLE + "    return r1.m1[r0];\n", 2, 0),
    (INT, WHOLE + "    return r1.m1[r0];\n", 3, NOTHING),
    (INT, WHOLE + "    return r1.m1[r0];\n", -1, NOTHING),
    (INT, WHOLE + "    r1.m1[r0] = INT64_C(4);\n    return r1.m1[2];\n", 2, 4),
    (INT, WHOLE + "    r1.m1[r0] = INT64_C(4);\n    return r1.m1[2];\n", 3, NOTHING),
    (INT, WHOLE + "    r1.m2[r0][1].m0 = INT64_C(4);\n    return r1.m2[1][1].m0 + r1.m2[1][0].m0;\n", 1, 4),
    (INT, WHOLE + "    r1.m2[r0][1].m0 = INT64_C(4);\n    return r1.m2[1][1].m0;\n", 2, NOTHING),
    (INT, FIXED + "    return r1.m1[1] + r1.m1[2] + r1.m2[1][1].m0;\n", 6, 6),
    (INT, PAIR + "    return r1.m2;\n", 1, REFUSED),
    # pointers: what is written has nothing in common with what else is passed, nor with what a pointer to const leads to
    (INT, PAIR + "    const struct P_t0 r2 = {INT64_C(4), true};\n    P_f1(&r1, &r2);\n    return r1.m0;\n", 1, 4),
    (INT, PAIR + "    P_f1(&r1, &r1);\n    return r1.m0;\n", 1, NOTHING),
    (INT, WHOLE + "    P_f1(&r1.m0, &r1.m2[0][0]);\n    return r1.m0.m0;\n", 1, 0),
    (INT, WHOLE + "    P_f1(&r1.m2[1][0], &r1.m2[0][0]);\n    return r1.m0.m0;\n", 1, NOTHING),
    (INT, FIXED + "    const struct P_t0 *const r2 = &r1.m0;\n    const int64_t r3 = P_f0(r2);\n    return r3 + r2->m0;\n", 4, 8),
    (INT, FIXED + "    const struct P_t0 *const r2 = &r1.m2[r0][0];\n    return r2->m0;\n", 1, 0),
    (INT, FIXED + "    const struct P_t0 *const r2 = &r1.m2[r0][0];\n    return r2->m0;\n", 2, NOTHING),
    # stricter than C99: in the whole function nothing is written of the local that such a pointer leads into
    (INT, "    struct P_t0 r1;\n    r1 = P_zeros(P_t0);\n    const struct P_t0 *const r2 = &r1;\n    r1.m0 = r0;\n    return r2->m0;\n", 4, NOTHING),
    (INT, WHOLE + "    const struct P_t0 *const r2 = &r1.m2[0][0];\n    return r2->m0;\n", 4, NOTHING),
    (INT, WHOLE + "    const bool r2 = P_f2(&r1);\n    return r2 ? r0 : INT64_C(0);\n", 4, 4),
    (INT, "    const int64_t r1 = P_f3();\n    return r0 + r1;\n", 4, 12),
    (INT, "    const int64_t r1 = P_f4(r0);\n    return r1;\n", 4, REFUSED),
    (INT, "    const int64_t r1 = P_f0(r0);\n    return r1;\n", 4, REFUSED),
    # blocks, loops and answers
    (INT, "    if (r0 < INT64_C(0)) {\n        return INT64_C(1);\n    } else {\n        return INT64_C(2);\n    }\n", -1, 1),
    (INT, "    if (r0 < INT64_C(0)) {\n        return INT64_C(1);\n    }\n    return INT64_C(2);\n", 1, 2),
    (INT, "    if (r0 < INT64_C(0)) {\n        return INT64_C(1);\n    }\n", 1, NOTHING),
    (INT, "    int64_t r1;\n    r1 = INT64_C(0);\n    for (uint32_t r2 = 0; (r2 < UINT32_C(5)) && (r1 < r0); r2++) {\n        r1 = r1 + INT64_C(2);\n    }\n    return r1;\n", 7, 8),
    (INT, "    int64_t r1;\n    r1 = INT64_C(0);\n    for (uint32_t r2 = 0; (r2 < UINT32_C(5)) && (r1 < r0); r2++) {\n        r1 = r1 + INT64_C(2);\n    }\n    return r1;\n", 70, 10),
    (INT, LOOP + "        if (r1 == UINT32_C(3)) {\n            return r0;\n        }\n    }\n    return INT64_C(9);\n", 7, 7),
    (INT, LOOP + "        int64_t r2;\n        if (r1 == UINT32_C(0)) {\n            r2 = r0;\n        } else {\n            return r2;\n        }\n    }\n    return INT64_C(9);\n", 7, NOTHING),
    (INT, LOOP + "        r1 = UINT32_C(4);\n    }\n    return r0;\n", 7, REFUSED),
    (INT, "    if (r0 < INT64_C(0)) {\n        const int64_t r1 = INT64_C(1);\n        (void)r1;\n    }\n    return r1;\n", 1, REFUSED),
]


def tried(bench):
    for head, lines, given, wanted in ROWS:
        found = answered(f"{BEFORE}{head}\n{{\n{lines}}}\n", given)
        if not same(found, wanted):
            raise Differs(f"by the rules `{head}` with {given} of\n{lines} has {found}, not {wanted}")
        bench.tally["rules of C"] += 1
    compiled(bench, [row for row in ROWS if row[3] not in (NOTHING, REFUSED)])


def same(found, wanted):
    return found == wanted and isinstance(found, bool) == isinstance(wanted, bool)


def answered(text, given):
    """What the function P_f4 of a text answers."""
    try:
        return Meaning(read(text)).call("P_f4", [given])
    except Undefined:
        return NOTHING
    except Unread:
        return REFUSED


def compiled(bench, rows):
    """Holds gcc to these rows."""
    functions = "".join(f"{head}\n{{\n{lines}}}\n".replace("P_f4", f"P_row{number}") for number, (head, lines, _, _) in enumerate(rows))
    tests = "".join(f"    printf({TOLD}, P_row{number}({literal(given)}) == {literal(wanted)});\n" for number, (_, _, given, wanted) in enumerate(rows))
    text = f"{BEFORE}{functions}#include <stdio.h>\n\nint main(void)\n{{\n{tests}    return 0;\n}}\n"
    told = bench.ran([bench.built("rules", [bench.file("rules.c", text)], [*SANITIZED, "-w"])])
    if told.output != b"1" * len(rows) or told.error:
        raise Differs(f"by gcc the rows tell {told}")


def literal(value):
    if isinstance(value, bool):
        return str(value).lower()
    return "INT64_MIN" if value == LEAST else f"UINT64_C({value})" if value > GREATEST else f"INT64_C({value})"
