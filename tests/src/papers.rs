//! Examples and rules of the source documents 000 to 004 that document 01's
//! twelve kinds can say, each with its place, what the source says there, the
//! same as a problem in the text of `text.rs`, and the verdict.
//!
//! The verdict is the meaning's. Where a source is wrong the row says so.
//! A rule `left -> right` gives rows of three sorts: left without right has no
//! solution; right without left has none; left has one. A negated constraint
//! is written by kinds 2, 4 and 6, or by a number variable as its witness. A
//! size is written as a list of variables that differ. An interval with
//! variable ends is written with ends chosen here.

pub struct Row {
    pub place: &'static str,
    /// The line of the source's file.
    pub line: u32,
    pub says: &'static str,
    pub text: &'static str,
    pub satisfiable: bool,
    /// All solutions, of the variables they name.
    pub solutions: &'static [&'static str],
    /// How many solutions there are, of the variables named.
    pub count: Option<(usize, &'static str)>,
    /// Why what the source says is not so.
    pub wrong: &'static str,
    pub note: &'static str,
}

pub struct Source {
    pub file: &'static str,
    pub title: &'static str,
    pub rows: &'static [Row],
}

const fn sat(place: &'static str, line: u32, says: &'static str, text: &'static str) -> Row {
    Row { place, line, says, text, satisfiable: true, solutions: &[], count: None, wrong: "", note: "" }
}

const fn unsat(place: &'static str, line: u32, says: &'static str, text: &'static str) -> Row {
    Row { place, line, says, text, satisfiable: false, solutions: &[], count: None, wrong: "", note: "" }
}

impl Row {
    const fn solutions(self, solutions: &'static [&'static str]) -> Row {
        Row { solutions, ..self }
    }

    const fn count(self, count: usize, of: &'static str) -> Row {
        Row { count: Some((count, of)), ..self }
    }

    const fn wrong(self, wrong: &'static str) -> Row {
        Row { wrong, ..self }
    }

    const fn note(self, note: &'static str) -> Row {
        Row { note, ..self }
    }
}

pub const SOURCES: [Source; 5] = [
    Source {
        file: "000",
        title: "A Decision Procedure for a Theory of Finite Sets with Finite Integer Intervals",
        rows: INTERVALS,
    },
    Source {
        file: "001",
        title: "Integrating Cardinality Constraints into Constraint Logic Programming with Sets",
        rows: CARDINALITY,
    },
    Source {
        file: "002",
        title: "Rewrite Rules for a Solver for Sets, Binary Relations and Integer Intervals",
        rows: RULES,
    },
    Source {
        file: "003",
        title: "A Set-Theoretic Decision Procedure for Quantifier-Free, Decidable Languages Extended with Restricted Quantifiers",
        rows: QUANTIFIERS,
    },
    Source { file: "004", title: "{log} User's Manual", rows: MANUAL },
];

#[rustfmt::skip]
const INTERVALS: &[Row] = &[
    unsat("Section 2 (1)", 43, "un(A, B, C), A || B, size(A, j), size(B, j): two parts of equal size",
        "C = A + B; A || B; A = {x}; B = {y}; C = {z}").note("j = 1: two elements are not one"),
    sat("Section 2 (2)", 47, "un(A, B, [k, m]), A || B, size(A, j), size(B, j)",
        "[1, 4] = A + B; A || B; A = {x, y}; B = {z, w}; x != y; z != w")
        .solutions(&["A={1,2} B={3,4}", "A={1,3} B={2,4}", "A={1,4} B={2,3}",
            "A={2,3} B={1,4}", "A={2,4} B={1,3}", "A={3,4} B={1,2}"])
        .note("k = 1, m = 4, j = 2; the solutions are ours"),
    unsat("Section 2 (2)", 47, "un(A, B, [k, m]), A || B, size(A, j), size(B, j)",
        "[1, 3] = A + B; A || B; A = {x}; B = {y}").note("k = 1, m = 3, j = 1: an odd number has no halves"),
    unsat("Section 2 (3)", 53, "k <= m => (A = [k, m] <=> A sub [k, m] and |A| = m - k + 1)",
        "A sub [1, 3]; A = {x, y, z}; x != y; x != z; y != z; A != [1, 3]").note("right without left"),
    unsat("Section 2 (3)", 53, "k <= m => (A = [k, m] <=> A sub [k, m] and |A| = m - k + 1)",
        "A = [1, 3]; A = {x, y}").note("left, and fewer than 3 elements"),
    unsat("Section 2", 69, "[k, m] \\ [i, j], whose result is not necessarily an interval",
        "I = [1, 5] & [3, 3]; [1, 5] = A + I; A || I; A != {1, 2, 4, 5}").note("[1, 5] \\ [3, 3] as A"),
    sat("Example 2", 155, "a in [k, i], a notin B, un([m, k+1], B, C), C = {x | D} is a formula",
        "a in [1, 3]; a notin B; C = [0, 2] + B; C = {x | D}").note("k = 1, i = 3, m = 0"),
    sat("Example 2", 157, "un(A, B, [k, j]), n + k > 5, size([k, j], n), B != {} is a formula",
        "[3, 5] = A + B; B != {}").note("k = 3, j = 5, so n = 3"),
    unsat("Section 3.2 (Ab)", 200, "{x, x | A} = {x | A}", "{x, x | A} != {x | A}"),
    unsat("Section 3.2 (Cl)", 202, "{x, y | A} = {y, x | A}", "{x, y | A} != {y, x | A}"),
    unsat("Section 3.2", 204, "{1, 2} and {2, 1} denote the same set", "{1, 2} != {2, 1}"),
    unsat("Section 3.2", 204, "{1, 2} and {1, 2, 1} denote the same set", "{1, 2} != {1, 2, 1}"),
    unsat("Section 3.3", 212, "A sub B can be defined by un(A, B, B)", "A sub B; C = A + B; C != B"),
    unsat("Remark 2", 228, "A sub B as a synonym of un(A, B, B)", "B = A + B; n in A; n notin B"),
    unsat("Section 3.3 (6)", 220, "nun(A, B, C) = (n in C, n notin A, n notin B) or (n in A, n notin C) or (n in B, n notin C)",
        "D = A + B; C != D; A sub C; B sub C; C sub D").note("left, and none of the three cases"),
    unsat("Figure 1 (7)", 299, "{x | A} = {y | B} -> ... or A = {y | N}, {x | N} = B",
        "A = {y | N}; B = {x | N}; {x | A} != {y | B}").note("fourth case without left"),
    unsat("Figure 1 (7)", 295, "{x | A} = {y | B} -> four cases",
        "{x | A} = {y | B}; x != y; y notin A").note("left, and none of the four cases"),
    sat("Section 4.2", 313, "{1} = {1, 1} turns out to be true", "{1} = {1, 1}"),
    unsat("Section 4.2", 313, "its first case, {} = {1}", "1 = 1; {} = {1}"),
    unsat("Section 4.2", 313, "its third case, {} = {1, 1}", "1 = 1; {} = {1, 1}"),
    unsat("Section 4.2", 313, "its fourth case, {} = {1 | N}, {1 | N} = {1}", "{} = {1 | N}; {1 | N} = {1}"),
    unsat("Figure 1 (8)", 301, "un({x | C}, A, B) -> {x | C} = {x | N1}, x notin N1, B = {x | N}, x notin A, un(N1, A, N) or ...",
        "E = {x | M}; x notin M; B = {x | N}; x notin A; N = M + A; D = E + A; D != B")
        .note("first case without left; E is {x | C}, M is N1"),
    unsat("Figure 1 (8)", 303, "... or A = {x | N2}, x notin N2, un(N1, N2, N)",
        "E = {x | M}; x notin M; B = {x | N}; A = {x | P}; x notin P; N = M + P; D = E + A; D != B")
        .note("second case without left; the parentheses do not match in print, read as in 002 (∪5)"),
    unsat("Figure 1 (8)", 303, "... x notin N2 prevents terms denoting the same set",
        "x notin M; A = {x | P}; x notin P; N = M + P; x in N"),
    sat("Figure 1 (9)", 306, "size({x | A}, m) -> ... or A = {x | N}, x notin N, size(N, m)",
        "A = {x | N}; x notin N; N = {p}; D = {x | A}; D = {r, s}; r != s")
        .wrong("for m = 1 the second case has a solution in which {x | A} has 2 elements: N is without x, so {x | A} has one more than N. Right is size(A, m), as the proof in 001 has it")
        .note("second case without left"),
    unsat("Section 4.2", 319, "1 notin {2, 3, 1, 4} leads to a failure", "1 notin {2, 3, 1, 4}"),
    unsat("Section 4.2", 341, "|{1, 2, 3, 1, 4}| = |{2, 3, 1, 4}|", "{1, 2, 3, 1, 4} != {2, 3, 1, 4}"),
    unsat("Figure 2 (10)", 323, "[k, m] = {} -> m < k", "[4, 2] != {}").note("right without left"),
    unsat("Figure 2 (11)", 325, "[k, m] = {y | B} -> {y | B} sub [k, m], size({y | B}, m - k + 1)",
        "[1, 3] = {y | B}; B = {p}").note("left, and fewer than 3 elements"),
    unsat("Figure 2 (12)", 327, "[k, m] = [i, j] -> k = i, m = j or both empty", "[2, 4] = [2, 5]"),
    unsat("Figure 2 (13)", 329, "[k, m] != {} -> k <= m", "[2, 2] = {}").note("right without left"),
    unsat("Figure 2 (14)", 333, "[k, m] != {y | B} -> n in one and not in the other",
        "[1, 2] != {y | B}; y in [1, 2]; B sub [1, 2]; 1 in B; 2 in B").note("left, and no such n"),
    unsat("Figure 2 (15)", 337, "[k, m] != [i, j] -> one is not empty and an end differs, or the other is empty",
        "[3, 2] != [9, 1]").note("both are empty, so right is false"),
    unsat("Section 4.3", 347, "if m < k then {y | B} sub [k, m] will fail", "{y | B} sub [4, 2]"),
    sat("Figure 3 (16)", 355, "x in [k, m] -> k <= x <= m", "x in [1, 3]").solutions(&["x=1", "x=2", "x=3"]),
    unsat("Figure 3 (17)", 357, "x notin [k, m] -> x < k or m < x", "x notin [1, 3]; x = 2"),
    sat("Figure 4 (18)", 361, "[k, m] || {} -> true", "[1, 3] || {}"),
    sat("Figure 4 (19)", 367, "[k, m] || A -> m < k or ...", "[2, 1] || A; x in A"),
    unsat("Figure 4 (19)", 367, "[k, m] || A -> ... N sub [k, m], size(N, m - k + 1), N || A",
        "[1, 2] || A; N sub [1, 2]; N = {p, q}; p != q; n in N; n in A").note("left without N || A"),
    unsat("Figure 4 (19)", 367, "[k, m] || A -> ... N sub [k, m], size(N, m - k + 1), N || A",
        "N sub [1, 2]; N = {p, q}; p != q; N || A; n in [1, 2]; n in A").note("right without left"),
    sat("Figure 4 (20)", 369, "[k, m] || [i, j] -> ... m < i or j < k", "[5, 8] || [1, 4]"),
    unsat("Figure 4 (20)", 369, "[k, m] || [i, j] -> ... m < i or j < k", "[1, 5] || [5, 8]"),
    unsat("Figure 4 (21)", 371, "not [k, m] || A -> n in [k, m], n in A", "n in [1, 3]; n in A; [1, 3] || A"),
    sat("Figure 5 (22)", 411, "{} sub [k, m] -> true", "{} sub [1, 3]"),
    sat("Figure 5 (23)", 413, "A sub [k, m] is irreducible: always satisfied by the empty set", "A sub [1, 3]; A = {}"),
    unsat("Figure 5 (24)", 415, "{y | C} sub [k, m] -> k <= y <= m, C sub [k, m]", "{y | C} sub [1, 3]; 4 in C"),
    unsat("Figure 5 (24)", 415, "{y | C} sub [k, m] -> k <= y <= m, C sub [k, m]",
        "y in [1, 3]; C sub [1, 3]; n in {y | C}; n notin [1, 3]").note("right without left"),
    unsat("Section 4.6", 395, "rule (25) covers un({x | A}, B, [k, m])", "[1, 3] = {x | A} + B; x notin [1, 3]"),
    unsat("Figure 5 (25)", 419, "un(A, B, [k, m]) -> m < k, A = {}, B = {} or ...", "[3, 1] = A + B; A != {}"),
    unsat("Figure 5 (26)", 423, "un([k, m], [i, j], A) -> ... N1, N2 the two intervals, un(N1, N2, A)",
        "A = [1, 2] + [2, 3]; A != [1, 3]"),
    unsat("Section 4.6 (27)", 397, "un([2, m], [m + 1, 10], [2, 10])", "D = [2, 4] + [5, 10]; D != [2, 10]").note("m = 4"),
    sat("Example 3", 463, "un({3, x, 1}, {y, 5}, [k, m]): k = 1, m = 5, x can be 2 and y 4 or vice versa",
        "[1, 5] = {3, x, 1} + {y, 5}").solutions(&["x=2 y=4", "x=4 y=2"]),
    unsat("Example 3", 465, "with y = 5 it cannot be an interval", "[1, 5] = {3, x, 1} + {y, 5}; y = 5"),
    unsat("Example 3", 463, "k = 1, m = 5", "[0, 5] = {3, x, 1} + {y, 5}").note("k = 0: six numbers, five entries"),
    unsat("Example 4 (30)", 479, "un(A, B, C), un(A, B, D), C != D is clearly unsatisfiable", "C = A + B; D = A + B; C != D"),
    unsat("Example 5", 487, "its first case, n in C, n notin D, returns false", "C = A + B; D = A + B; n in C; n notin D"),
    unsat("Example 5", 487, "its second case, n notin C, n in D, returns false", "C = A + B; D = A + B; n notin C; n in D"),
    sat("Example 6", 579, "{x | A} = [k, m] is satisfiable with m = k = x, A = {}", "{x | A} = [4, 4]; A = {}")
        .solutions(&["x=4 A={}"]),
    sat("Example 6", 575, "second answer: A = {x | N1}, x notin N1", "{x | A} = [4, 4]; A = {x | N}; x notin N")
        .solutions(&["x=4 A={4} N={}"]),
    unsat("Section 6.1 (34)", 609, "smin(S, m), smax(S, n) => m <= n", "4 in S; S sub [4, 6]; 2 in S; S sub [0, 2]")
        .note("m = 4, n = 2, with [4, 6] and [0, 2] for [m, _] and [_, n]"),
    unsat("Section 6.1 (35)", 613, "smin(S, m), x in S, x < m is unsatisfiable", "2 in S; S sub [2, 5]; x in S; x in [0, 1]").note("m = 2"),
    sat("Example 7", 634, "snth({7, 8, 2, 14}, 2, e) gives e = 7",
        "S = {7, 8, 2, 14}; S = P + Q; P || Q; 2 in P; 7 in P; P = {p, q}; p != q; P sub [2, 7]; Q sub [8, 14]")
        .solutions(&["P={2,7} Q={8,14}"]).note("definition (36) with e = 7, m = 2; the solution is ours"),
    unsat("Example 7", 634, "snth({7, 8, 2, 14}, 2, e) gives e = 7",
        "S = {7, 8, 2, 14}; S = P + Q; P || Q; 2 in P; 8 in P; P = {p, q}; p != q; P sub [2, 8]; Q sub [9, 14]").note("e = 8"),
    sat("Example 7", 633, "snth({7, 8, 2, 14}, 1, e) gives e = 2",
        "S = {7, 8, 2, 14}; S = P + Q; P || Q; 2 in P; P = {p}; P sub [2, 2]; Q sub [3, 14]"),
    sat("Example 8", 643, "snth({7, 8, x, 14}, 3, 8) is true for x < 7",
        "S = {7, 8, 5, 14}; S = P + Q; P || Q; 5 in P; 8 in P; P = {p, q, r}; p != q; p != r; q != r; P sub [5, 8]; Q sub [9, 14]").note("x = 5"),
    unsat("Example 8", 643, "snth({7, 8, x, 14}, 3, 8) is true for x < 7",
        "S = {7, 8, 9, 14}; S = P + Q; P || Q; 7 in P; 8 in P; P = {p, q, r}; p != q; p != r; q != r; P sub [7, 8]; Q sub [9, 14]").note("x = 9"),
    unsat("Section 6.3 (39)", 666, "maxlb_mnub fails if i in S", "3 in S; S = L + U; L || U; L sub [0, 2]; U sub [4, 6]").note("i = 3"),
    unsat("Section 6.3 (40)", 670, "maxlb_mnub(S, i, L, ...), smin(S, k), i < k => L = {}",
        "S = L + U; L || U; L sub [0, 2]; U sub [4, 6]; 4 in S; S sub [4, 6]; L != {}").note("i = 3, k = 4"),
    unsat("Section 6.3 (41)", 676, "S sub T and both partitioned at i => Us sub Ut",
        "S sub T; S = L + U; T = M + V; L sub [0, 2]; U sub [4, 6]; M sub [0, 2]; V sub [4, 6]; n in U; n notin V").note("i = 3"),
    sat("Example 9", 690, "max_int({5, 3, 8, 2, 4, 7, 1}, k, m) binds k to 1 and m to 5",
        "S = {5, 3, 8, 2, 4, 7, 1}; S = [1, 5] + R; [1, 5] || R; 0 notin R; 6 notin R").solutions(&["R={7,8}"]),
    sat("Example 9", 690, "and then to 7 and 8", "S = {5, 3, 8, 2, 4, 7, 1}; S = [7, 8] + R; [7, 8] || R; 6 notin R; 9 notin R")
        .solutions(&["R={1,2,3,4,5}"]),
    unsat("Example 9", 690, "max_int has these two answers only",
        "S = {5, 3, 8, 2, 4, 7, 1}; S = [1, 4] + R; [1, 4] || R; 0 notin R; 5 notin R").note("k = 1, m = 4"),
    unsat("Example 9", 690, "max_int(S, 1, 5) returns S = {1, 2, 3, 4, 5 | N}, 0 notin N, 6 notin N",
        "S = [1, 5] + R; [1, 5] || R; 0 notin R; 6 notin R; 6 in S"),
    unsat("Section 6.4 (43)", 694, "max_int(S, k, m), [a, m] sub S => k <= a",
        "S = [3, 5] + R; [3, 5] || R; 2 notin R; 6 notin R; [2, 5] sub S").note("k = 3, m = 5, a = 2"),
    unsat("Section 6.4 (44)", 700, "un([a, b], [b + 2, c], S), max_int(S, k, m) => k = a, m = b or k = b + 2, m = c",
        "S = [1, 3] + [5, 6]; S = [1, 2] + R; [1, 2] || R; 0 notin R; 3 notin R").note("a = 1, b = 3, c = 6, k = 1, m = 2"),
    unsat("Section 6.4", 702, "with b + 1 the maximal interval is [a, c]", "S = [1, 3] + [4, 6]; S != [1, 6]"),
    sat("Example 11", 729, "un({x | A}, B, [k + 1, m]), size(A, p), size(B, p - 3)",
        "[1, 3] = {x | A} + B; A = {p, q, r}; p != q; p != r; q != r; B = {}")
        .solutions(&["x=1 A={1,2,3}", "x=2 A={1,2,3}", "x=3 A={1,2,3}"])
        .note("k = 0, m = 3, p = 3; the source does not say; the solutions are ours"),
    unsat("Figure 8 (45)", 762, "diff([k, m], [i, j], A): k <= i <= j <= m, un([k, i - 1], [j + 1, m], A)",
        "I = [1, 6] & [3, 4]; [1, 6] = A + I; A || I; C = [1, 2] + [5, 6]; A != C").note("left without right; I is the intersection"),
    unsat("Figure 8 (45)", 760, "diff([k, m], [i, j], A): k <= i <= m <= j, A = [k, i - 1]",
        "I = [1, 4] & [3, 6]; [1, 4] = A + I; A || I; A != [1, 2]"),
    unsat("Figure 8 (45)", 761, "diff([k, m], [i, j], A): i <= k <= j <= m, A = [j + 1, m]",
        "I = [3, 6] & [1, 4]; [3, 6] = A + I; A || I; A != [5, 6]"),
    unsat("Figure 8 (45)", 759, "diff([k, m], [i, j], A): i <= k <= m <= j, A = {}",
        "I = [2, 3] & [1, 4]; [2, 3] = A + I; A || I; A != {}"),
    unsat("Figure 8 (45)", 758, "diff([k, m], [i, j], A): j < k, A = [k, m]",
        "I = [5, 6] & [1, 2]; [5, 6] = A + I; A || I; A != [5, 6]"),
    unsat("Example 12", 769, "un(int(K, M), int(I, J), A) & un(int(I, J), int(K, M), B) & A neq B",
        "A = [1, 3] + [2, 5]; B = [2, 5] + [1, 3]; A != B").note("the source gives no verdict"),
    sat("Section 8.2", 862, "going up from floor 3 with requests {2, 5, 8, 1, 0} the next floor is 5",
        "R = {2, 5, 8, 1, 0}; 3 notin R; R = L + U; L || U; L sub [0, 2]; U sub [4, 8]; 5 in U; U sub [5, 8]")
        .solutions(&["L={0,1,2} U={5,8}"]).note("the solution is ours"),
    unsat("Section 8.2", 862, "going up from floor 3 with requests {2, 5, 8, 1, 0} the next floor is 5",
        "R = {2, 5, 8, 1, 0}; 3 notin R; R = L + U; L || U; L sub [0, 2]; U sub [4, 8]; 8 in U; U sub [8, 8]").note("next floor 8"),
    sat("Section 8.2", 873, "going down it is 2",
        "R = {2, 5, 8, 1, 0}; 3 notin R; R = L + U; L || U; L sub [0, 2]; U sub [4, 8]; 2 in L; L sub [0, 2]"),
    sat("Appendix B, Lemma 2", 1126, "a hole: the union cannot yield an interval", "D = [1, 2] + [4, 5]; 3 notin D"),
    unsat("Appendix B, Lemma 2", 1126, "a hole: the union cannot yield an interval", "[1, 5] = [1, 2] + [4, 5]"),
    sat("Appendix B, Lemma 2", 1132, "i = m + 1: the union is [k, j]", "[1, 5] = [1, 2] + [3, 5]"),
    sat("Appendix B, Lemma 2", 1138, "i < m: the union is again [k, j]", "[1, 6] = [1, 4] + [3, 6]"),
    sat("Appendix B, Lemma 2", 1144, "j < m: the union is [k, m]", "[1, 6] = [1, 6] + [3, 4]"),
    unsat("Appendix C (C.1)", 1238, "lb_ub: if the cardinality of S is odd, it does not hold",
        "S = {1, 2, 3}; S = L + U; L || U; L = {p, q}; U = {r, s}; p != q; r != s"),
    sat("Appendix C (C.1)", 1242, "lb_ub(S, Lb, Ub): two equal halves, the lower and the higher",
        "S = {1, 2, 3, 4}; S = L + U; L || U; L sub [1, 2]; U sub [3, 4]; L = {p, q}; U = {r, s}; p != q; r != s")
        .solutions(&["L={1,2} U={3,4}"]).note("m = 2, n = 3; the solution is ours"),
    sat("Appendix C (C.2)", 1253, "ssucc(A, x, y): y is the successor of x in A",
        "A = {2, 5, 9}; A = {2, 5 | B}; 2 notin B; 5 notin B; B = I + J; I || J; I sub [0, 1]; J sub [6, 9]")
        .solutions(&["B={9} I={} J={9}"]).note("x = 2, y = 5; the solution is ours"),
    unsat("Appendix C (C.2)", 1253, "ssucc(A, x, y): y is the successor of x in A",
        "A = {2, 5, 9}; A = {2, 9 | B}; 2 notin B; 9 notin B; B = I + J; I || J; I sub [0, 1]; J sub [10, 11]").note("x = 2, y = 9"),
];

#[rustfmt::skip]
const CARDINALITY: &[Row] = &[
    unsat("Section 1", 29, "C = A + B, A & B = {}: two disjoint subsets", "C = A + B; D = A & B; D = {}; x in A; y in B; x = y"),
    unsat("Section 2.1", 118, "{t1, ..., tn} is a shorthand for {t1, ..., tn | t}", "{1, 2} = {1, 2 | T}; 3 in T")
        .wrong("with t in place of {} the shorthand would have other elements. 000 and 003 print {}"),
    sat("Example 2", 150, "a in A, a notin B, un(A, B, C), C = {x | D} is a formula", "a in A; a notin B; C = A + B; C = {x | D}"),
    unsat("Figure 1 (2)", 308, "{x | A} = {y | B} -> ... or A = {y | N}, {x | N} = B",
        "{x | A} = {y | B}; x != y; x notin B").note("left, and none of the four cases"),
    unsat("Section 3.2, rule (3)", 287, "x in A, y in A will be transformed into {x | N1} = {y | N2}",
        "x in A; y in A; A = {x | M}; A = {y | N}; x != y; y notin M"),
    unsat("Figure 1 (3)", 312, "x in A -> A = {x | N}", "x in A; A != {x | A}").note("left, and A itself is no such N"),
    unsat("Figure 1 (5)", 316, "un({x | C}, A, B) -> ... B = {x | N} ...", "B = {x | C} + A; x notin B"),
    sat("Figure 1 (5)", 320, "second case: A = {x | N2}, x notin N2", "B = {x | C} + A; A = {x | N}; x notin N; x notin C"),
    unsat("Figure 2 (7)", 328, "size({}, m) -> m = 0", "A = {}; A = {p}"),
    sat("Figure 2 (10)", 341, "size({x | A}, m) -> ... or A = {x | N}, x notin N, size(N, m)",
        "A = {x | N}; x notin N; N = {p, q}; p != q; D = {x | A}; D = {r, s, t}; r != s; r != t; s != t")
        .wrong("for m = 2 the second case has a solution in which {x | A} has 3 elements: N is without x. The proof of Lemma 1 (line 890) has size(A, m), which is right")
        .note("second case without left"),
    unsat("Figure 2 (10)", 339, "size({x | A}, m) -> x notin A, m = 1 + n, size(A, n) or ...",
        "x notin A; A = {p}; D = {x | A}; D = {q}").note("n = 1: first case without left"),
    unsat("Section 3.2", 346, "size({1, 2, 3, 1, 4}, m): the second choice becomes size({2, 3, 1, 4}, m)",
        "{1, 2, 3, 1, 4} = {p, q, r}")
        .note("rule (10) as printed makes it size({2, 3, 4}, m) instead, so m = 3"),
    sat("Section 3.2", 346, "|{1, 2, 3, 1, 4}| = |{2, 3, 1, 4}|",
        "{1, 2, 3, 1, 4} = {p, q, r, s}; p != q; p != r; p != s; q != r; q != s; r != s"),
    unsat("Appendix A, Lemma 1", 889, "x in A => {x} + A = A", "x in A; {x | A} != A"),
    unsat("Appendix A, Lemma 1", 863, "or A = {x | N}, x notin N, size(N, m)",
        "A = {x | N}; x notin N; N = {p}; D = {x | A}; D = {q}")
        .wrong("for m = 1 this case and size({x | A}, m) exclude each other: N and x are 2 elements"),
    unsat("Example 3", 383, "un(A, B, C), size(A, ma), size(B, mb), size(C, mc), ma + mb < mc is unsatisfiable",
        "C = A + B; A = {x}; B = {y}; C = {p, q, r}; p != q; p != r; q != r").note("ma = mb = 1, mc = 3"),
    unsat("Example 4", 401, "y in x is transformed into w = {y}, x = w + x", "W = {y}; X = W + X; y notin X").note("right without left"),
    unsat("Example 4", 401, "y in x is transformed into w = {y}, x = w + x", "y in X; W = {y}; V = W + X; V != X").note("left without right"),
    unsat("Example 4", 403, "{u} + x = h & w is transformed into v = {u}, t = v + x, t = h & w",
        "V = {u}; T = V + X; T = H & W; u notin H"),
    sat("Section 4.2", 444, "1 notin S, ..., 20 notin S, size(S, m): we can find m constants anyway",
        "1 notin S; 2 notin S; 3 notin S; 4 notin S; 5 notin S; 6 notin S; 7 notin S; 8 notin S; 9 notin S; 10 notin S; 11 notin S; 12 notin S; 13 notin S; 14 notin S; 15 notin S; 16 notin S; 17 notin S; 18 notin S; 19 notin S; 20 notin S; S = {p, q}; p != q")
        .note("m = 2"),
    unsat("Example 5", 460, "un(A, B, C), A || C, A != {} is unsatisfiable disregarding the rest", "C = A + B; A || C; A != {}"),
    unsat("Section 4.3", 475, "un(A, B, C) -> (not C or B or A) and (not A or C) and (C or not A)", "C = A + B; n in B; n notin C")
        .wrong("the second and third clause are the same, and an element in B only fulfils all three. Right is (not B or C) for one of them"),
    unsat("Example 6", 521, "un(A, B, C), size(A, m1), size(B, m2), size(B, m3), m3 > m1 + m2 is unsatisfiable",
        "C = A + B; A = {x}; B = {y}; B = {p, q, r}; p != q; p != r; q != r")
        .note("as printed, with B twice: m1 = m2 = 1, m3 = 3. C is meant for the second"),
    sat("Example 7", 531, "the same with m3 <= m1 + m2 is satisfiable", "C = A + B; A = {x}; B = {y}").note("m1 = m2 = m3 = 1"),
    unsat("Example 8", 555, "size(A, m), 1 <= m, B sub A, size(B, n), 5 <= n", "A = {p}; B sub A; B = {q, r}; q != r")
        .note("m = 1, n = 2: B is not larger than A"),
    sat("Example 9", 578, "A = {n5, ..., n1}, m = 5, B = {n5, ..., n1}, n = 5, all different",
        "A = {a, b, c, d, e}; B sub A; B = {a, b, c, d, e}; a != b; a != c; a != d; a != e; b != c; b != d; b != e; c != d; c != e; d != e"),
    sat("Section 6 (14)", 570, "size(A, c) -> A = {n1, ..., nc}, all different", "A = {p, q}; p != q; x in A; x != p").note("c = 2"),
    sat("Appendix A, Lemma 2", 902, "ad(y1, ..., yc) = conjunction of yi != yi", "A = {p, q}; p != q")
        .wrong("as printed it asks yi != yi, which nothing fulfils; yi != yj is meant (line 572 has it)"),
    unsat("Appendix A, Lemma 2", 902, "ad(y1, ..., yc) = conjunction of yi != yi", "A = {p, q}; p != p")
        .note("the same as printed"),
    sat("Section 7", 620, "A = {}, B = {n}, C = {n}, N = 1", "C = A + B; C = {n}; B != {}; A = {}; B = {n}"),
    sat("Section 7.1", 647, "C1 = {hellow}, C2 = {hellow, world}", "A = {}; C = A + {1}; D = C + {2}").solutions(&["C={1} D={1,2}"])
        .note("1 and 2 for the two words"),
    unsat("Section 7.1", 655, "the verification condition of insert is a theorem",
        "E = {e}; M = E & C; M = {}; C = {c}; D = C + E; D = {p}").note("one element before, so two after"),
    unsat("Figure 4 (16)", 663, "inters(A1, A2, A3): m3 <= m1, m3 <= m2", "C = A & B; A = {x}; C = {p, q}; p != q").note("m1 = 1, m3 = 2"),
    unsat("Section 7.2", 677, "inters(A, B, C) = un(C, N1, A), un(C, N2, B), N1 || N2",
        "A = C + M; B = C + N; M || N; n in M; n in B; n notin C"),
    unsat("Example 11", 687, "B = A1 + ... + A20, sum of |Ai| < |B| is unsatisfiable",
        "U = A + B; V = U + C; A = {x}; B = {y}; C = {z}; V = {p, q, r, s}; p != q; p != r; p != s; q != r; q != s; r != s")
        .note("three sets of one element each, and four elements"),
    unsat("Section 7.4", 740, "A1 + ... + A50 = {}, |A43| > 2 * k + 5", "U = A + B; V = U + C; V = {}; n in B")
        .note("three sets; B is not empty. The source says only that it is solved in no time"),
    unsat("Section 8", 752, "A sub B, |A| = n, |B| = n => A = B", "A sub B; A = {p, q}; B = {r, s}; p != q; r != s; A != B").note("n = 2"),
    unsat("Section 8", 758, "x in A <=> {x} sub A", "{x} sub A; x notin A").note("right without left"),
    unsat("Section 8", 758, "x in A <=> {x} sub A", "x in A; n in {x}; n notin A").note("left without right"),
    unsat("Section 8", 760, "x in B + C is written un(B, C, A), x in A, rewritten A = {x | N}, un(B, C, {x | N})",
        "A = B + C; A = {x | N}; x notin B; x notin C"),
    sat("Section 9", 782, "A = [m, n] <=> A sub [m, n] and |A| = n - m + 1", "A = [5, 2]; A = {}").solutions(&["A={}"])
        .wrong("without m <= n it fails: m = 5, n = 2 gives left for the empty set, and |A| = -2 on the right. 000 (3) has the condition"),
    unsat("Section 9", 782, "A = [m, n] <=> A sub [m, n] and |A| = n - m + 1", "A sub [7, 8]; A = {p, q}; p != q; A != [7, 8]"),
    sat("Appendix C", 977, "cache({1, b, [2, q]}, 2, Cache): {b, [2, q]}, {1, [2, q]}, {1, b}",
        "D = {1, 2, 3}; D = R + C; R || C; C = {p, q}; p != q").solutions(&["C={2,3}", "C={1,3}", "C={1,2}"])
        .note("2 and 3 for b and [2, q]"),
    unsat("Appendix C", 997, "cache(Cont, N, Cache), N < M, Cache = {} cannot be satisfied", "D = R + C; R || C; C = {p}; C = {}").note("N = 1"),
    unsat("Figure E 1", 1013, "A != t -> ... or A = {}, t != {}", "A = {}; T != {}; A = T").note("third case without left"),
    unsat("Example 13", 1046, "un(A, B, C), un(A, B, D), n notin C, n in D returns false",
        "C = A + B; D = A + B; n notin C; D = {n | N}"),
];

#[rustfmt::skip]
const RULES: &[Row] = &[
    unsat("Section 1", 61, "{} denotes also the interval [k, m] where m < k", "[7, 4] != {}"),
    sat("Figure 4 (=1)", 137, "x = x -> true", "x = x; A = A"),
    unsat("Figure 4 (=2)", 139, "t = x -> x = t", "3 = x; x != 3").note("left without right"),
    sat("Figure 4 (=3)", 141, "A = {x1, ..., xn | A} -> A = {x1, ..., xn | N}", "A = {x, y | A}; x != y"),
    unsat("Figure 4 (=3)", 141, "A = {x1, ..., xn | A} -> A = {x1, ..., xn | N}", "A = {x, y | A}; y notin A").note("left without right"),
    unsat("Figure 4 (=3)", 141, "A = {x1, ..., xn | A} -> A = {x1, ..., xn | N}", "A = {x, y | N}; A != {x, y | A}").note("right without left"),
    sat("Figure 4 (=4)", 143, "if x in vars(t): x = t -> false", "A = {3 | A}")
        .note("for flat sets (=3) stands before it, so (=4) is left for sets of sets"),
    unsat("Figure 4 (=5)", 147, "x = t, and substitute x by t in all other literals", "x = 3; x in A; 3 notin A"),
    unsat("Figure 4 (=5)", 147, "x = t, and substitute x by t in all other literals", "A = {1, 2}; B = A; C = B + {3}; C != {1, 2, 3}"),
    sat("Figure 4 (=6)", 149, "{} = [k, m] -> [k, m] = {}", "{} = [5, 3]"),
    unsat("Figure 4 (=7)", 151, "[k, m] = {} -> m < k", "[3, 5] = {}").note("left without right"),
    sat("Figure 4 (=8)", 153, "{x | A} = [k, m] -> [k, m] = {x | A}", "{x | A} = [1, 3]; x = 2; 2 notin A").solutions(&["x=2 A={1,3}"])
        .note("the solution is ours"),
    unsat("Figure 4 (=9)", 155, "[k, m] = {x | A} -> {x | A} sub [k, m], size({x | A}, m - k + 1)",
        "[1, 3] = {x | A}; n in A; n notin [1, 3]").note("left without the first part of right"),
    unsat("Figure 4 (=9)", 155, "[k, m] = {x | A} -> {x | A} sub [k, m], size({x | A}, m - k + 1)",
        "D = {x | A}; D sub [1, 2]; D = {p, q}; p != q; D != [1, 2]").note("right without left"),
    unsat("Figure 4 (=10)", 157, "if f and g differ: f = g -> false", "3 = 4").note("constants only"),
    sat("Figure 5 (=11)", 168, "{x1, ..., xm | A} = {y1, ..., yn | A}", "{x | A} = {y | A}; x != y"),
    unsat("Figure 5 (=11)", 168, "{x1, ..., xm | A} = {y1, ..., yn | A} -> x1 = yj ... or A = {x1 | N} ...",
        "{x, z | A} = {y, w | A}; x != y; x != w; x notin A").note("left, and none of the cases"),
    unsat("Figure 5 (=11)", 169, "first case: x1 = yj, {x2, ..., xm | A} = {.., yj left out, .. | A}",
        "x = y; E = {z | A}; E = {w | A}; {x, z | A} != {y, w | A}").note("without left"),
    unsat("Figure 5 (=11)", 170, "second case: x1 = yj, {x1, ..., xm | A} = {.., yj left out, .. | A}",
        "x = y; {x, z | A} = {w | A}; {x, z | A} != {y, w | A}").note("without left"),
    unsat("Figure 5 (=11)", 171, "third case: x1 = yj, {x2, ..., xm | A} = {y1, ..., yn | A}",
        "x = y; {z | A} = {y, w | A}; {x, z | A} != {y, w | A}").note("without left"),
    unsat("Figure 5 (=11)", 172, "fourth case: A = {x1 | N}, {x2, ..., xm | N} = {y1, ..., yn | N}",
        "A = {x | N}; N = {y | N}; {x | A} != {y | A}").note("without left; m = n = 1, so N = {y | N}"),
    unsat("Figure 5 (=12)", 177, "{x | A} = {y | B} -> x = y, A = B or ...", "x = y; A = B; {x | A} != {y | B}").note("first case without left"),
    unsat("Figure 5 (=12)", 178, "or x = y, {x | A} = B", "x = y; {x | A} = B; {x | A} != {y | B}").note("second case without left"),
    unsat("Figure 5 (=12)", 179, "or x = y, A = {y | B}", "x = y; A = {y | B}; {x | A} != {y | B}").note("third case without left"),
    unsat("Figure 5 (=12)", 180, "or A = {y | B}, {x | A} = B", "A = {y | B}; {x | A} = B; {x | A} != {y | B}").note("fourth case as printed, without left"),
    sat("Figure 5 (=12)", 180, "or A = {y | B}, {x | A} = B", "{x | A} = {y | B}; x != y; A = {y}; B = {x}")
        .wrong("left is true and none of the four printed cases: the fourth asks A = {x, y}. 000 (7), 001 (2) and 003 (21) print A = {y | N}, {x | N} = B"),
    unsat("Figure 5 (=12)", 180, "or A = {y | B}, {x | A} = B", "A = {y | B}; {x | A} = B; x != y; A = {y}; B = {x}")
        .note("the printed fourth case on the solution above"),
    sat("Figure 5 (=13)", 183, "[k, m] = [i, j] -> k = i, m = j or both empty", "[1, 3] = [1, 3]; [5, 3] = [9, 2]"),
    unsat("Figure 5 (=13)", 183, "[k, m] = [i, j] -> k = i, m = j or both empty", "[1, 3] = [2, 3]"),
    unsat("Figure 6 (≠1)", 198, "x != x -> false", "x != x"),
    unsat("Figure 6 (≠1)", 198, "x != x -> false", "A != A"),
    unsat("Figure 6 (≠2)", 199, "t != x -> x != t", "3 != x; x = 3"),
    sat("Figure 6 (≠3)", 201, "A != {x1, ..., xn | A} -> x1 notin A or ... or xn notin A", "A != {x, y | A}; x in A"),
    unsat("Figure 6 (≠3)", 201, "A != {x1, ..., xn | A} -> x1 notin A or ... or xn notin A", "A != {x, y | A}; x in A; y in A").note("left without right"),
    unsat("Figure 6 (≠3)", 201, "A != {x1, ..., xn | A} -> x1 notin A or ... or xn notin A", "y notin A; A = {x, y | A}").note("right without left"),
    sat("Figure 6 (≠5)", 203, "{x | A} != {y | B}", "{x | A} != {y | B}; x = y"),
    unsat("Figure 6 (≠5)", 204, "{x | A} != {y | B} -> N in {x | A}, N notin {y | B} or ...",
        "n in {x | A}; n notin {y | B}; {x | A} = {y | B}").note("first case without left"),
    unsat("Figure 6 (≠5)", 204, "... or N notin {x | A}, N in {y | B}",
        "n notin {x | A}; n in {y | B}; {x | A} = {y | B}").note("second case without left"),
    unsat("Figure 6 (≠5)", 203, "{x | A} != {y | B} -> two cases",
        "{x | A} != {y | B}; {x | A} sub {y | B}; {y | B} sub {x | A}").note("left, and none of the cases"),
    sat("Figure 6 (≠6)", 206, "[k, m] != [i, j] -> (k <= m and (m != j or j < i or k != i)) or ...", "[3, 1] != [2, 2]"),
    unsat("Figure 6 (≠6)", 206, "[k, m] != [i, j] -> (k <= m and (m != j or j < i or k != i)) or ...", "[1, 3] != [1, 3]"),
    unsat("Figure 6 (≠7)", 207, "f != f -> false", "3 != 3"),
    sat("Figure 6 (≠14)", 215, "if f and g differ: f != g -> true", "3 != 4").note("constants only"),
    unsat("Figure 6 (≠10)", 210, "{} != [k, m] -> [k, m] != {}", "{} != [3, 1]"),
    sat("Figure 6 (≠11)", 211, "[k, m] != {} -> k <= m", "[2, 2] != {}"),
    sat("Figure 6 (≠12)", 212, "{x | A} != [k, m] -> [k, m] != {x | A}", "{x | A} != [1, 2]; x = 1; 2 in A"),
    unsat("Figure 6 (≠13)", 214, "[k, m] != {y | B} -> ... or N notin [k, m], N in {y | B}",
        "n notin [1, 2]; n in {y | B}; [1, 2] = {y | B}").note("second case without left"),
    unsat("Figure 6 (≠13)", 213, "[k, m] != {y | B} -> two cases",
        "[1, 2] != {y | B}; [1, 2] sub {y | B}; {y | B} sub [1, 2]").note("left, and none of the cases"),
    unsat("Figure 7 (∈1)", 235, "x in {} -> false", "x in {}"),
    unsat("Figure 7 (∈2)", 237, "x in {y | A} -> x = y or x in A", "x in {y | A}; x != y; x notin A").note("left without right"),
    unsat("Figure 7 (∈2)", 237, "x in {y | A} -> x = y or x in A", "x = y; x notin {y | A}").note("first case without left"),
    unsat("Figure 7 (∈2)", 237, "x in {y | A} -> x = y or x in A", "x in A; x notin {y | A}").note("second case without left"),
    unsat("Figure 7 (∈3)", 239, "x in A -> A = {x | N}", "A = {x | N}; x notin A").note("right without left"),
    sat("Figure 7 (∈3)", 239, "x in A -> A = {x | N}", "x in A; A = {x | N}; x notin N; y in N"),
    unsat("Figure 7 (∈4)", 241, "x in [k, m] -> k <= x <= m", "x in [2, 4]; x != 2; x != 3; x != 4").note("left without right"),
    unsat("Figure 7 (∈4)", 241, "x in [k, m] -> k <= x <= m", "x in [-2, 4]; x = 5"),
    unsat("Figure 8 (∪1)", 257, "un(A, A, B) -> A = B", "B = A + A; A != B").note("left without right"),
    unsat("Figure 8 (∪1)", 257, "un(A, A, B) -> A = B", "A = B; C = A + A; C != B").note("right without left"),
    unsat("Figure 8 (∪2)", 259, "un(A, B, {}) -> A = {}, B = {}", "{} = A + B; A != {}").note("left without right"),
    unsat("Figure 8 (∪2)", 259, "un(A, B, {}) -> A = {}, B = {}", "{} = A + B; x in B").note("left without right"),
    unsat("Figure 8 (∪2)", 259, "un(A, B, {}) -> A = {}, B = {}", "A = {}; B = {}; C = A + B; C != {}").note("right without left"),
    unsat("Figure 8 (∪3)", 261, "un({}, A, B) -> B = A", "B = {} + A; A != B").note("left without right"),
    unsat("Figure 8 (∪4)", 263, "un(A, {}, B) -> B = A", "B = A; C = A + {}; C != B").note("right without left"),
    sat("Figure 8 (∪5)", 267, "un({x | C}, A, B)", "B = {x | C} + A; x in A; x notin C"),
    unsat("Figure 8 (∪5)", 267, "un({x | C}, A, B) -> (x notin A, un(N1, A, N) or ...), {x | C} = {x | N1}, B = {x | N}",
        "E = {x | C}; E = {x | M}; x notin A; N = M + A; B = {x | N}; D = E + A; D != B").note("first case without left; E is {x | C}"),
    unsat("Figure 8 (∪5)", 267, "... A = {x | N2}, un(N1, N2, N) ...",
        "E = {x | M}; A = {x | P}; N = M + P; B = {x | N}; D = E + A; D != B").note("second case without left; E is {x | C}"),
    unsat("Figure 8 (∪6)", 271, "un(A, {x | C}, B) -> the same",
        "E = {x | M}; x notin A; N = M + A; B = {x | N}; D = A + E; D != B").note("first case without left"),
    unsat("Figure 8 (∪6)", 271, "un(A, {x | C}, B) -> the same", "B = A + {x | C}; x notin B"),
    unsat("Figure 8 (∪7)", 275, "un(A, B, {x | C}) -> A = {x | N1} ... or B = {x | N1} ... or both",
        "{x | C} = A + B; x notin A; x notin B").note("left, and none of the cases"),
    sat("Figure 8 (∪7)", 275, "first case: A = {x | N1}, un(N1, B_2, N), {x | C} = {x | N}",
        "A = {x | M}; N = M + P; D = {x | N}; E = A + B; E != D")
        .wrong("B_2 stands nowhere else: as printed nothing is said of B, and the case has solutions that left has not. B is meant")
        .note("first case as printed, without left; P is B_2, D is {x | C}"),
    unsat("Figure 8 (∪7)", 275, "first case: A = {x | N1}, un(N1, B, N), {x | C} = {x | N}",
        "A = {x | M}; N = M + B; D = {x | N}; E = A + B; E != D").note("with B for B_2, without left"),
    unsat("Figure 8 (∪7)", 275, "second case: B = {x | N1}, un(A, N1, N), {x | C} = {x | N}",
        "B = {x | M}; N = A + M; D = {x | N}; E = A + B; E != D").note("without left"),
    unsat("Figure 8 (∪7)", 275, "third case: A = {x | N1}, B = {x | N2}, un(N1, N2, N), {x | C} = {x | N}",
        "A = {x | M}; B = {x | P}; N = M + P; D = {x | N}; E = A + B; E != D")
        .note("without left; the parentheses do not match in print: {x | C} = {x | N} is read as part of each case"),
    unsat("Figure 9 (∪8)", 283, "un([k, m], A, B) -> m < k, A = B or ...", "B = [3, 1] + A; A != B").note("left without the first case"),
    unsat("Figure 9 (∪8)", 285, "... or N sub [k, m], size(N, m - k + 1), un(N, A, B)",
        "N sub [1, 2]; N = {p, q}; p != q; B = N + A; C = [1, 2] + A; C != B").note("second case without left"),
    unsat("Figure 9 (∪9)", 291, "un(A, [k, m], B) -> ... N the interval, un(A, N, B)", "B = A + [1, 2]; 2 notin B"),
    unsat("Figure 9 (∪10)", 297, "un(A, B, [k, m]) -> ... N the interval, un(A, B, N)", "[1, 2] = A + B; x in B; x notin [1, 2]"),
    unsat("Figure 9 (∪10)", 297, "un(A, B, [k, m]) -> ... N the interval, un(A, B, N)", "[1, 2] = A + B; 2 notin A; 2 notin B"),
    unsat("Figure 9 (∪11)", 301, "un([k, m], [i, j], A) -> m < k, j < i, A = {} or ...", "A = [3, 1] + [5, 2]; x in A"),
    unsat("Figure 9 (∪11)", 303, "or m < k, i <= j, [i, j] = A", "A = [3, 1] + [1, 2]; A != [1, 2]"),
    unsat("Figure 9 (∪11)", 313, "or ... un(N1, N2, A)", "A = [1, 2] + [4, 5]; A != {1, 2, 4, 5}"),
    unsat("Figure 9 (∪12)", 317, "un([k, m], A, [i, j]) -> j < i, [k, m] = A = {} or ...", "[4, 2] = [1, 3] + A"),
    unsat("Figure 9 (∪12)", 319, "or i <= j, m < k, A = [i, j]", "[1, 2] = [3, 1] + A; A != [1, 2]"),
    sat("Figure 9 (∪12)", 327, "or ... un(N1, A, N2)", "[1, 3] = [1, 2] + A; 1 notin A").solutions(&["A={3}", "A={2,3}"])
        .note("the solutions are ours"),
    unsat("Figure 10 (∪13)", 345, "un(A, [k, m], [i, j]) -> ... un(A, N1, N2)", "[1, 3] = A + [2, 3]; 1 notin A"),
    sat("Figure 10 (∪14)", 349, "un([k, m], [i, j], [p, q]) -> m < k, [i, j] = [p, q] or ...", "[5, 7] = [3, 1] + [5, 7]"),
    sat("Figure 10 (∪14)", 357, "or i < k, k <= j + 1, m <= j, p = i, q = j", "[1, 6] = [4, 5] + [1, 6]"),
    sat("Figure 10 (∪14)", 359, "or i < k, k <= j + 1, j < m, p = i, q = m", "[1, 6] = [4, 6] + [1, 3]"),
    unsat("Figure 10 (∪14)", 353, "or k <= i, i <= m + 1, m <= j, p = k, q = j", "[2, 6] = [1, 3] + [4, 6]").note("p = 2, k = 1"),
    sat("Section 4.2, irreducible form", 365, "un(A, B, C), A and B distinct variables", "C = A + B; x in A; x notin B; y in B; y notin A"),
    sat("Figure 11 (∥1)", 376, "{} || A -> true", "{} || A; x in A"),
    sat("Figure 11 (∥2)", 377, "A || {} -> true", "A || {}; A = {1, 2}"),
    unsat("Figure 11 (∥3)", 378, "A || A -> A = {}", "A || A; A != {}").note("left without right"),
    unsat("Figure 11 (∥4)", 379, "{x | B} || A -> x notin A, A || B", "{x | B} || A; x in A").note("left without the first part of right"),
    unsat("Figure 11 (∥4)", 379, "{x | B} || A -> x notin A, A || B", "{x | B} || A; n in A; n in B").note("left without the second part of right"),
    unsat("Figure 11 (∥4)", 379, "{x | B} || A -> x notin A, A || B", "x notin A; A || B; n in {x | B}; n in A").note("right without left"),
    unsat("Figure 11 (∥5)", 380, "A || {x | B} -> x notin A, A || B", "A || {x | B}; x in A"),
    unsat("Figure 11 (∥6)", 381, "{x | A} || {y | B} -> x != y, x notin B, y notin A, A || B", "{x | A} || {y | B}; x = y"),
    unsat("Figure 11 (∥6)", 381, "{x | A} || {y | B} -> x != y, x notin B, y notin A, A || B", "{x | A} || {y | B}; x in B"),
    unsat("Figure 11 (∥6)", 381, "{x | A} || {y | B} -> x != y, x notin B, y notin A, A || B", "{x | A} || {y | B}; y in A"),
    unsat("Figure 11 (∥6)", 381, "{x | A} || {y | B} -> x != y, x notin B, y notin A, A || B",
        "x != y; x notin B; y notin A; A || B; n in {x | A}; n in {y | B}").note("right without left"),
    sat("Figure 11 (∥7)", 382, "[k, m] || [i, j] -> m < k or j < i or one before the other", "[1, 3] || [4, 6]; [3, 1] || [1, 6]"),
    unsat("Figure 11 (∥7)", 382, "[k, m] || [i, j] -> m < k or j < i or one before the other", "[1, 3] || [2, 2]"),
    unsat("Figure 11 (∥8)", 383, "A || [k, m] -> [k, m] || A", "A || [1, 2]; 2 in A"),
    unsat("Figure 11 (∥9)", 385, "[k, m] || A -> ... N sub [k, m], size(N, m - k + 1), N || A",
        "[1, 2] || A; N sub [1, 2]; N = {p, q}; p != q; p in A").note("left without right"),
    sat("Section 4.3, irreducible form", 391, "A || B, A and B distinct variables", "A || B; A != {}; B != {}"),
    sat("Figure 12 (4.4)", 411, "size({x | A}, m) -> ... or A = {x | N}, x notin N, size(N, m)",
        "x = 1; A = {x | N}; x notin N; N = {2, 3}; D = {x | A}; D = {1, 2, 3}")
        .wrong("for m = 2 the second case has a solution in which {x | A} has 3 elements: N is without x. Right is size(A, m), as the proof in 001 has it")
        .note("second case without left"),
    unsat("Figure 12 (4.4)", 411, "size({x | A}, m) -> x notin A, m = 1 + n, size(A, n) or ...",
        "x notin A; A = {p, q}; p != q; D = {x | A}; D = {r, s}").note("n = 2: first case without left"),
    unsat("Figure 12 (4.5)", 413, "size([k, m], p) -> ... k <= m, p = m - k + 1", "[1, 3] = {p, q}").note("3 numbers, not 2"),
    unsat("Figure 12 (4.5)", 413, "size([k, m], p) -> m < k, p = 0 or ...", "[3, 1] = {p}"),
    sat("Figure 13 (4.6)", 431, "A sub A -> true", "A sub A; x in A"),
    sat("Figure 13 (4.7)", 433, "{} sub A -> true", "{} sub A; A = {}"),
    unsat("Figure 13 (4.8)", 435, "A sub {} -> A = {}", "A sub {}; A != {}").note("left without right"),
    unsat("Figure 13 (4.9)", 437, "{x | A} sub {} -> false", "{x | A} sub {}"),
    unsat("Figure 13 (4.10)", 439, "{x1, ..., xn | A} sub A -> un({x1, ..., xn | A}, A, A)",
        "{x, y | A} sub A; C = {x, y | A} + A; C != A").note("left without right"),
    unsat("Figure 13 (4.10)", 439, "{x1, ..., xn | A} sub A -> un({x1, ..., xn | A}, A, A)",
        "A = {x, y | A} + A; n in {x, y | A}; n notin A").note("right without left"),
    unsat("Figure 13 (4.11)", 441, "{x | A} sub B -> B = {x | N}, A sub {x | N}", "{x | A} sub B; x notin B").note("left without right"),
    unsat("Figure 13 (4.11)", 441, "{x | A} sub B -> B = {x | N}, A sub {x | N}",
        "B = {x | N}; A sub {x | N}; n in {x | A}; n notin B").note("right without left"),
    sat("Figure 13 (4.12)", 443, "{x1, ..., xn | A} sub {y1, ..., ym | A}", "{x | A} sub {y, z | A}; x != y; x notin A"),
    unsat("Figure 13 (4.12)", 443, "{x1, ..., xn | A} sub {y1, ..., ym | A} -> un of the two is the second",
        "{x | A} sub {y, z | A}; C = {x | A} + {y, z | A}; C != {y, z | A}").note("left without right"),
    unsat("Figure 13 (4.13)", 445, "{x | A} sub {y | B} -> x = y, A sub {y | B} or ...",
        "x = y; A sub {y | B}; n in {x | A}; n notin {y | B}").note("first case without left"),
    unsat("Figure 13 (4.13)", 445, "... or x != y, x in B, A sub {y | B}",
        "x != y; x in B; A sub {y | B}; n in {x | A}; n notin {y | B}").note("second case without left"),
    unsat("Figure 13 (4.13)", 445, "{x | A} sub {y | B} -> two cases", "{x | A} sub {y | B}; x != y; x notin B").note("left, and none of the cases"),
    unsat("Figure 13 (4.14)", 447, "{x | A} sub [k, m] -> k <= x <= m, A sub [k, m]", "{x | A} sub [1, 2]; x != 1; x != 2"),
    unsat("Figure 13 (4.14)", 447, "{x | A} sub [k, m] -> k <= x <= m, A sub [k, m]", "{x | A} sub [1, 2]; n in A; n notin [1, 2]"),
    sat("Figure 13 (4.15)", 449, "[k, m] sub A -> m < k or N sub A, size(N, m - k + 1)",
        "A = {3, 4}; N sub A; N = {p, q}; p != q; n in [1, 2]; n notin A")
        .wrong("N sub [k, m] is missing (the other rules of this form have it): any set of 2 elements would hold [1, 2]")
        .note("right without left"),
    unsat("Figure 13 (4.15)", 449, "[k, m] sub A -> m < k or N sub A, size(N, m - k + 1)", "A = {3, 4}; [1, 2] sub A")
        .note("left on the A above"),
    unsat("Figure 13 (4.15)", 449, "[k, m] sub A -> m < k or N sub A, size(N, m - k + 1)",
        "N sub A; N sub [1, 2]; N = {p, q}; p != q; n in [1, 2]; n notin A").note("right without left, N sub [1, 2] added"),
    sat("Figure 13 (4.16)", 451, "[k, m] sub [i, j] -> m < k or i <= k, m <= j", "[2, 3] sub [1, 4]; [5, 2] sub [3, 1]"),
    unsat("Figure 13 (4.16)", 451, "[k, m] sub [i, j] -> m < k or i <= k, m <= j", "[2, 5] sub [1, 4]"),
    sat("Section 4.5, irreducible forms", 458, "A sub {y | B}", "A sub {y | B}; x in A; x notin B").note("only with x = y"),
    unsat("Figure 14 (4.17)", 471, "inters(A, A, B) -> A = B", "B = A & A; A != B").note("left without right"),
    unsat("Figure 14 (4.18)", 473, "inters({}, B, C) -> C = {}", "C = {} & B; C != {}").note("left without right"),
    unsat("Figure 14 (4.19)", 475, "inters(A, {}, C) -> C = {}", "C = A & {}; x in C").note("left without right"),
    unsat("Figure 14 (4.20)", 477, "inters(A, B, {}) -> A || B", "{} = A & B; n in A; n in B").note("left without right"),
    unsat("Figure 14 (4.20)", 477, "inters(A, B, {}) -> A || B", "A || B; C = A & B; C != {}").note("right without left"),
    unsat("Figure 14 (4.21)", 483, "inters({x | A}, B, C) -> x in B, C = {x | N2}, inters(A, B, N2) or ...",
        "x in B; C = {x | N}; N = A & B; D = {x | A} & B; D != C").note("first case without left"),
    unsat("Figure 14 (4.21)", 483, "... or x notin B, inters(A, B, C)",
        "x notin B; C = A & B; D = {x | A} & B; D != C").note("second case without left"),
    unsat("Figure 14 (4.22)", 489, "inters(B, {x | A}, C) -> x in B, C = {x | N2}, inters(A, B, N2) or ...",
        "x in B; C = {x | N}; N = A & B; D = B & {x | A}; D != C").note("first case without left"),
    unsat("Figure 14 (4.22)", 491, "... or x notin B, inters(A, B, C)", "C = B & {x | A}; x notin B; x in C").note("left, and x in C"),
    unsat("Figure 14 (4.23)", 497, "inters(A, B, {x | C}) -> A = {x | N1}, B = {x | N2}, inters(N1, N2, C)",
        "A = {x | M}; B = {x | N}; C = M & N; D = A & B; D != {x | C}").note("right without left"),
    unsat("Figure 14 (4.23)", 497, "inters(A, B, {x | C}) -> A = {x | N1}, B = {x | N2}, inters(N1, N2, C)",
        "{x | C} = A & B; x notin A").note("left without right"),
    sat("Figure 14 (4.23)", 497, "inters(A, B, {x | C}) -> A = {x | N1}, B = {x | N2}, inters(N1, N2, C)",
        "{x | C} = A & B; x in C; A = {x | M}; B = {x | N}; C = M & N"),
    unsat("Figure 15 (4.25)", 507, "inters([k, m], [i, j], C) -> j < i, C = {} or ...", "C = [1, 3] & [5, 2]; C != {}"),
    unsat("Figure 15 (4.25)", 509, "or m < i, C = {}", "C = [1, 3] & [4, 6]; C != {}"),
    unsat("Figure 15 (4.25)", 511, "or k <= i, i <= m, m <= j, C = [i, m]", "C = [1, 4] & [2, 6]; C != [2, 4]"),
    unsat("Figure 15 (4.25)", 512, "or i <= k, k <= j, j <= m, C = [k, j]", "C = [2, 6] & [1, 4]; C != [2, 4]"),
    unsat("Figure 15 (4.25)", 513, "or k < i, j < m, C = [i, j]", "C = [1, 6] & [2, 4]; C != [2, 4]"),
    unsat("Figure 15 (4.25)", 514, "or i < k, m < j, C = [k, m]", "C = [3, 4] & [1, 6]; C != [3, 4]"),
    unsat("Figure 15 (4.26)", 519, "inters(A, B, C) -> un(C, N1, A), un(C, N2, B), N1 || N2",
        "A = C + M; B = C + N; M || N; D = A & B; D != C").note("right without left"),
    sat("Figure 15 (4.26)", 519, "inters(A, B, C) -> un(C, N1, A), un(C, N2, B), N1 || N2",
        "C = A & B; A = C + M; B = C + N; M || N; x in M; y in N; z in C"),
    unsat("Figure 16 (4.27)", 538, "diff(A, B, C) -> un(C, A, A), un(B, C, N), un(A, N, N), B || C",
        "A = C + A; N = B + C; N = A + N; B || C; I = A & B; A = D + I; D || I; D != C").note("right without left; D is A \\ B"),
    unsat("Figure 16 (4.27)", 538, "diff(A, B, C) -> un(C, A, A), un(B, C, N), un(A, N, N), B || C",
        "I = A & B; A = C + I; C || I; n in B; n in C").note("left without B || C"),
    unsat("Figure 16 (4.27)", 538, "diff(A, B, C) -> un(C, A, A), un(B, C, N), un(A, N, N), B || C",
        "I = A & B; A = C + I; C || I; N = B + C; D = A + N; D != N").note("left without un(A, N, N)"),
    sat("Figure 32 (∈5)", 929, "x notin {} -> true", "x notin {}"),
    unsat("Figure 32 (∈6)", 931, "x notin {y | A} -> x != y, x notin A", "x notin {y | A}; x = y"),
    unsat("Figure 32 (∈6)", 931, "x notin {y | A} -> x != y, x notin A", "x notin {y | A}; x in A"),
    unsat("Figure 32 (∈6)", 931, "x notin {y | A} -> x != y, x notin A", "x != y; x notin A; x in {y | A}").note("right without left"),
    sat("Figure 32 (∈8)", 935, "x notin [k, m] -> x < k or m < x", "x notin [1, 2]; x in [0, 3]").solutions(&["x=0", "x=3"])
        .note("the solutions are ours"),
    unsat("Figure 33 (∪15)", 953, "nun(A, B, C) -> N in C, N notin A, N notin B or ...", "n in C; n notin A; n notin B; C = A + B").note("first case without left"),
    unsat("Figure 33 (∪15)", 953, "or N in A, N notin C", "n in A; n notin C; C = A + B").note("second case without left"),
    unsat("Figure 33 (∪15)", 953, "or N in B, N notin C", "n in B; n notin C; C = A + B").note("third case without left"),
    unsat("Figure 34 (∥10)", 969, "not A || B -> n in A, n in B", "n in A; n in B; A || B").note("right without left"),
    unsat("Figure 34 (∥10)", 969, "not A || B -> n in A, n in B", "I = A & B; I != {}; A || B").note("an n exists; left is false"),
    unsat("Figure 36 (7.1)", 997, "nsubset(A, B) -> n in A, n notin B", "n in A; n notin B; A sub B").note("right without left"),
    unsat("Figure 36 (7.1)", 997, "nsubset(A, B) -> n in A, n notin B", "D = A + B; D != B; A sub B").note("an n exists; left is false"),
    unsat("Figure 36 (7.2)", 999, "ninters(A, B, C) -> n in C, (n notin A or n notin B) or ...", "n in C; n notin B; C = A & B").note("first case without left"),
    unsat("Figure 36 (7.2)", 999, "or n in A, n in B, n notin C", "n in A; n in B; n notin C; C = A & B").note("second case without left"),
    unsat("Figure 36 (7.2)", 999, "ninters(A, B, C) -> two cases", "D = A & B; C != D; C sub A; C sub B; D sub C").note("left, and none of the cases"),
    unsat("Figure 36 (7.3)", 1001, "ndiff(A, B, C) -> n in C, n notin A or ...", "I = A & B; A = C + I; C || I; n in C; n notin A").note("first case without left"),
    unsat("Figure 36 (7.3)", 1001, "or n notin C, n in A, n notin B", "I = A & B; A = C + I; C || I; n notin C; n in A; n notin B").note("third case without left"),
    unsat("Figure 40 (≠15)", 1151, "X != t -> n in X, n notin t or ...", "n in X; n notin T; X = T").note("first case without left"),
    sat("Figure 40 (≠15)", 1151, "or X = {}, t != {}", "X != T; X = {}; T != {}"),
];

/// A filter phi is x in F here, so that {x : A | phi} is A & F, or x != y.
#[rustfmt::skip]
const QUANTIFIERS: &[Row] = &[
    sat("Example 1", 75, "min in {y | S}, {y | S} sub {x : {y | S} | min <= x}", "2 in {y | S}; {y | S} sub [2, 5]; y = 4").note("min = 2, with [2, 5] for the numbers from 2"),
    unsat("Example 1", 75, "min in {y | S}, {y | S} sub {x : {y | S} | min <= x}", "2 in {y | S}; {y | S} sub [2, 5]; 1 in S").note("min = 2"),
    unsat("Section 2.1 (7)", 81, "for all x in A: phi(x) <=> A sub {x : x in A and phi(x)}", "I = A & F; A sub I; n in A; n notin F").note("right without left"),
    unsat("Section 2.1 (7)", 81, "for all x in A: phi(x) <=> A sub {x : x in A and phi(x)}", "A sub F; I = A & F; n in A; n notin I").note("left without right"),
    unsat("Section 2.1", 95, "exists(x in A, phi) = n in A, phi(n)", "n in A; n in F; I = A & F; I = {}"),
    unsat("Section 2.1", 105, "foreach(x in X, foreach(y in Y, phi(x, y)))", "X || Y; x in X; y in Y; x = y").note("phi is x != y, so X and Y are disjoint"),
    sat("Figure 1 (9)", 263, "{} sub {x : A | phi(x)} -> true", "D = A & F; {} sub D; A != F"),
    unsat("Figure 1 (10)", 265, "{a | A} sub {x : {a | A} | phi(x)} -> phi(a), A sub {x : A | phi(x)}",
        "D = {a | A}; I = D & F; D sub I; a notin F").note("left without the first part of right"),
    unsat("Figure 1 (10)", 265, "{a | A} sub {x : {a | A} | phi(x)} -> phi(a), A sub {x : A | phi(x)}",
        "D = {a | A}; I = D & F; D sub I; J = A & F; n in A; n notin J").note("left without the second part of right"),
    unsat("Figure 1 (10)", 265, "{a | A} sub {x : {a | A} | phi(x)} -> phi(a), A sub {x : A | phi(x)}",
        "a in F; J = A & F; A sub J; D = {a | A}; I = D & F; n in D; n notin I").note("right without left"),
    sat("Figure 1 (11)", 307, "A sub {x : A | phi(x)} is trivially satisfied by substituting A by the empty set", "I = A & F; A sub I; A = {}; x in F"),
    unsat("Figure 1 (13)", 273, "a in {b | A} -> a = b or a in A", "a in {b, c | A}; a != b; a != c; a notin A").note("twice"),
    unsat("Figure 1 (14)", 275, "a in A -> A = {a | N}", "A = {a | N}; a in F; A || F"),
    unsat("Figure 1 (15)", 279, "{} = {} -> true", "{} != {}"),
    unsat("Figure 1 (18)", 285, "A = B, and substitute A by B in the rest of the formula", "A = {1 | B}; B = {2}; A != {1, 2}"),
    unsat("Figure 1 (19)", 287, "{a | A} = {} -> false", "{a | A} = {}"),
    unsat("Figure 1 (20)", 289, "{} = {a | A} -> false", "{} = {a | A}"),
    sat("Figure 1 (21)", 295, "{a | A} = {b | B} -> ... or A = {b | N}, B = {a | N}", "{a | A} = {b | B}; A = {b | N}; B = {a | N}; N = {}; a != b"),
    unsat("Figure 1 (21)", 295, "{a | A} = {b | B} -> ... or A = {b | N}, B = {a | N}", "A = {b | N}; B = {a | N}; {a | A} != {b | B}").note("fourth case without left"),
    unsat("Figure 1 (21)", 295, "{a | A} = {b | B} -> four cases", "{a | A} = {b | B}; a = b; n in A; n != a; n notin B").note("left, and none of the cases"),
    unsat("Example 2", 393, "foreach(x in A, foreach(y in B, x = y))", "A = {1, 2}; B sub {1}; B sub {2}; y in B").note("for A = {1, 2}, by (10): only the empty B"),
    sat("Example 2", 394, "exists(x in A, exists(y in B, not x = y))", "x in A; y in B; x != y; A = B"),
    unsat("Example 2", 394, "exists(x in A, exists(y in B, not x = y))", "x in A; y in B; x != y; A = {1}; B = {1}"),
    unsat("Example 2", 395, "exists(x in A, foreach(y in B, x = y))", "x in A; B sub {x}; y in B; y notin A"),
    unsat("Example 2", 396, "foreach(x in A, exists(y in B, x = y))", "A = {a, b}; a in B; b in B; n in A; n notin B").note("for A = {a, b}: A sub B"),
    sat("Example 3", 434, "(25) is reduced to phi(a, b), with A and B the empty set", "{a | A} || {b | B}; a != b; A = {}; B = {}").note("phi is x != y"),
    unsat("Example 3", 432, "(25) gives phi(a, b) ...", "{a | A} || {b | B}; a = b").note("phi is x != y"),
    unsat("Example 3", 432, "(25) gives phi(a, b), foreach(y in B, phi(a, y)), foreach([x in A, y in {b | B}], phi(x, y))",
        "a != b; a notin B; A || {b | B}; n in {a | A}; n in {b | B}").note("right without left"),
    sat("Example 4", 444, "foreach(x in {a | A}, exists(y in {b | A}, phi(x, y)))", "{a | A} sub {b | A}; a != b").note("phi is x = y"),
    unsat("Example 4", 444, "foreach(x in {a | A}, exists(y in {b | A}, phi(x, y)))", "{a | A} sub {b | A}; a != b; a notin A").note("phi is x = y"),
    unsat("Theorem 4", 497, "exists([x in A, y in B], phi) -> n1 in A, n2 in B, phi(n1, n2)", "x in A; y in B; x = y; A || B"),
    unsat("Section 4.2 (32)", 535, "foreach(x in {h | A}, exists(y in B, phi(x, y)))", "{h | A} sub B; h notin B").note("phi is x = y"),
    sat("Example 5", 543, "foreach(x in {h | A}, exists(y in B, ..)) and foreach(z in B, exists(w in {b | A}, ..))",
        "{h | A} sub B; B sub {b | A}; b notin B").note("phi and psi are equality"),
    unsat("Example 5", 543, "foreach(x in {h | A}, exists(y in B, ..)) and foreach(z in B, exists(w in {b | A}, ..))",
        "{h | A} sub B; B sub {b | A}; h != b; h notin A"),
    sat("Example 7", 692, "addUsr fails to preserve inv: Admin = {X / N}, Usr_ = {X / Usr}",
        "U || A; V = {x | U}; A = {x | N}; n in V; n in A"),
    sat("Example 7", 701, "with the pre-condition X nin Usr the answer is no", "U || A; x notin U; V = {x | U}; n in V; n in A")
        .wrong("X may be an administrator: x in A is not excluded. The pre-condition that helps is X nin Adm"),
    unsat("Example 7", 701, "with the pre-condition the answer is no", "U || A; x notin A; V = {x | U}; n in V; n in A").note("with X nin Adm"),
    unsat("Appendix A, Proposition 1", 928, "{x : {d | D} | phi} = {d : phi(d)} + {x : x in D and phi(x)}",
        "E = {d | D}; I = E & F; J = D & F; n in I; n notin J; n != d"),
    unsat("Appendix A, Proposition 1", 928, "{x : {d | D} | phi} = {d : phi(d)} + {x : x in D and phi(x)}",
        "I = {d | D} & F; J = D & F; d in F; I != {d | J}").note("for phi(d)"),
    unsat("Appendix A, Lemma 2", 940, "t notin A => {t | A} + {x : {t | A} | phi} = {x : {t | A} | phi} <=> phi(t), A + {x : A | phi} = {x : A | phi}",
        "t notin A; E = {t | A}; I = E & F; I = E + I; t notin F").note("left without phi(t)"),
    unsat("Appendix A, Lemma 2", 940, "the same",
        "t notin A; t in F; J = A & F; J = A + J; E = {t | A}; I = E & F; D = E + I; D != I").note("right without left"),
    unsat("Appendix A (37)", 944, "t notin A => {t} || A, {t} || {A | phi}", "t notin A; J = A & F; n in {t}; n in J"),
    unsat("Appendix A (38)", 948, "{x : {t} | phi} sub {t}", "J = {t} & F; n in J; n != t"),
    unsat("Appendix A (39)", 952, "{x : {t} | phi} = {t} <=> phi(t)", "J = {t} & F; J = {t}; t notin F").note("left without right"),
    unsat("Appendix A (39)", 952, "{x : {t} | phi} = {t} <=> phi(t)", "t in F; J = {t} & F; J != {t}").note("right without left"),
];

/// A constant of {log} that is not a number is a number here.
#[rustfmt::skip]
const MANUAL: &[Row] = &[
    sat("Section 2", 134, "un({1}, {2}, A) answers A = {1, 2}", "A = {1} + {2}").solutions(&["A={1,2}"]),
    unsat("Section 2.2", 210, "un12({1, 2, 3}) answers no", "{1, 2, 3} = {1} + {2}"),
    unsat("Section 3", 265, "{} = {1} answers no", "{} = {1}"),
    sat("Section 3", 273, "{X} = {1} answers X = 1", "{x} = {1}").solutions(&["x=1"]),
    unsat("Section 3", 286, "{x} = {1} answers no: x is a constant", "{2} = {1}").note("2 for x"),
    sat("Section 3", 292, "{X, Y} = {2, 1} has two solutions", "{x, y} = {2, 1}").solutions(&["x=2 y=1", "x=1 y=2"]),
    unsat("Section 3", 302, "{1 / {a / {}}} is {1, a}", "{1 | {2 | {}}} != {1, 2}").note("2 for a"),
    sat("Section 3", 304, "{X / A} = {6, 7, 8} has six solutions", "{x | A} = {6, 7, 8}")
        .solutions(&["x=6 A={7,8}", "x=6 A={6,7,8}", "x=7 A={6,8}", "x=7 A={6,7,8}", "x=8 A={6,7}", "x=8 A={6,7,8}"]),
    unsat("Section 3", 320, "{6 / {6, 7, 8}} is equal to {6, 7, 8}", "{6 | {6, 7, 8}} != {6, 7, 8}"),
    sat("Section 3", 326, "{X, Y / A} = {6, 7, 8} has 30 solutions", "{x, y | A} = {6, 7, 8}").count(30, "x y A"),
    sat("Section 3", 328, "among which X = 6, Y = 7, A = {8}", "{x, y | A} = {6, 7, 8}; x = 6; y = 7; A = {8}"),
    sat("Section 3", 332, "and X = 6, Y = 6, A = {6, 7, 8}", "{x, y | A} = {6, 7, 8}; x = 6; y = 6; 6 in A").solutions(&["A={6,7,8}"]),
    unsat("Table 1", 344, "strict subset: ssubset(A, B)", "A sub B; A != B; B sub A").note("A sub B and A != B"),
    unsat("Table 1", 342, "difference: diff(A, B, C), C = A \\ B", "I = A & B; A = C + I; C || I; D = C & B; D != {}"),
    sat("Section 3.1", 362, "inters({1}, {2}, A) answers A = {}", "A = {1} & {2}").solutions(&["A={}"]),
    sat("Section 3.2 (1)", 389, "x in A <=> exists B: A = {x} + B, x notin B", "x in A; A = {x | B}; x notin B; A = {1, 2, 3}")
        .solutions(&["x=1 B={2,3}", "x=2 B={1,3}", "x=3 B={1,2}"]).note("for A = {1, 2, 3}; the solutions are ours"),
    unsat("Section 3.2 (1)", 389, "x in A <=> exists B: A = {x} + B, x notin B", "A = {x | B}; x notin B; x notin A").note("right without left"),
    sat("Section 3.2", 393, "A = {X / B} does not assume X nin B", "A = {x | B}; x in B"),
    sat("Section 3.3", 403, "un({1 / B}, {j}, A) & j in B", "A = {1 | B} + {2}; 2 in B").note("2 for j"),
    unsat("Section 3.3", 407, "the answer: B = {j / N1}, A = {1, j / N1}, j nin N1",
        "A = {1 | B} + {2}; 2 in B; B = {2 | N}; 2 notin N; A != {1, 2 | N}"),
    unsat("Section 3.3", 417, "un({1 / B}, {j}, A) gives A = {j, 1 / B}", "A = {1 | B} + {2}; A != {2, 1 | B}"),
    sat("Section 3.3", 435, "X neq a & p(X) answers X = b", "x != 1; x in {2}").solutions(&["x=2"]).note("p holds of b only; 1 and 2 for a and b"),
    unsat("Section 3.4", 459, "un(B, C, A) & X in A & X nin B & X nin C returns no", "A = B + C; x in A; x notin B; x notin C"),
    sat("Section 3.5", 484, "ssubset(X, {a, b}) returns X = {a, b}, X = {a}, X = {b}, X = {}", "X sub {1, 2}; X != {1, 2}")
        .solutions(&["X={1}", "X={2}", "X={}"])
        .wrong("the strict subset (Table 1) excludes X = {a, b}: the four answers are subset's"),
    sat("Section 3.5", 491, "in prover mode: subset(X, {a, b})", "X sub {1, 2}").solutions(&["X={1,2}", "X={1}", "X={2}", "X={}"])
        .note("the four answers are of this constraint; see the row above"),
    sat("Section 4", 537, "dom(cp({a / A}, B), {a}) returns A = {} and A = {a}", "{1 | A} = {1}").solutions(&["A={}", "A={1}"])
        .note("for B not empty the domain is {a / A}; 1 for a"),
    unsat("Section 5.1.1", 706, "the sets of D with more than one element are none: Z = Y", "D = {y, z}; D = {p}; y != z").note("the part on {Y, Z}"),
    unsat("Section 5.1.6", 857, "inters(A, B, C) & D = ris(X in A, X in B) & C neq D is false",
        "C = A & B; D sub A; D sub B; E = B & A; E sub D; C != D").note("D is all X in A that are in B"),
    sat("Section 6", 961, "S1 = {a, b} & S2 = {Z} & foreach(X in S1, foreach(Y in S2, X neq Y))", "A = {1, 2}; B = {z}; A || B; z in {1, 2, 3}")
        .solutions(&["z=3"]).note("1 and 2 for a and b; the last statement is ours, to have a value"),
    unsat("Section 6", 968, "returns Z neq a, Z neq b", "A = {1, 2}; B = {z}; A || B; z = 2"),
    unsat("Section 6", 974, "S1 = {a / R} & S2 = {c} & the same", "{1 | R} || {3}; 3 in R"),
    unsat("Section 6", 1014, "foreach(X in R, X in {a, b}) returns subset(R, ris(X in R, X in S)), S a set", "R sub {1, 2}; 3 in R")
        .wrong("the printed answer has a set S in place of {a, b}, and holds of any R"),
    sat("Section 6", 1014, "subset(R, ris(X in R, X in S)), S a set", "I = R & S; R sub I; 3 in R").note("the printed answer"),
    sat("Section 6", 1026, "forall(X in R, X in {a, b}): R = {}, {a}, {a, b}, {b}", "R sub {1, 2}; S = R + {1}")
        .solutions(&["R={} S={1}", "R={1} S={1}", "R={1,2} S={1,2}", "R={2} S={1,2}"]).note("S is ours"),
    sat("Section 6", 1038, "forall(X in R, X in {a / S}) & a nin R: the first solution R = {}", "R sub {1 | S}; 1 notin R; R = {}"),
    sat("Section 6", 1038, "forall(X in R, X in {a / S}) & a nin R", "R sub {1 | S}; 1 notin R; R != {}").note("there are others than R = {}"),
    sat("Section 7", 1078, "X is 2 + 3 & X in {5}: the answer will be X = 5", "x = 5; x in {5}").solutions(&["x=5"]).note("2 + 3 worked out here"),
    sat("Section 7.1.1", 1150, "X in int(1, 10): the domain of X is [1, 10]", "x in [1, 10]")
        .solutions(&["x=1", "x=2", "x=3", "x=4", "x=5", "x=6", "x=7", "x=8", "x=9", "x=10"]),
    unsat("Section 7.1.1", 1233, "X in {1, 2, 3} is logically equivalent to X in int(1, 3)", "{1, 2, 3} != [1, 3]"),
    sat("Section 8", 1345, "size({1 / R}, M): 1 nin R, size(R, N1), N1 is M - 1", "D = {1 | R}; D = {p, q}; p != q; 1 notin R; R = {r}").note("M = 2, the first answer"),
    sat("Section 8", 1338, "size({1 / R}, M)", "D = {1 | R}; D = {p, q}; p != q; 1 in R").note("M = 2, the case left out of the first answer"),
    unsat("Section 8", 1358, "size(A, 3): A = {X, Y, Z}, all different", "A = {x, y, z}; x != y; x != z; y != z; A = {p, q}"),
    sat("Section 8", 1379, "size(A, 10) & subset({1, 2, 3}, A): A = {1, 2, 3 / N1}, size(N1, 7)",
        "{1, 2, 3} sub A; A = {1, 2, 3 | N}; 1 notin N; 2 notin N; 3 notin N; N = {n}; A = {p, q, r, n}").note("4 and 1 in place of 10 and 7"),
    unsat("Section 8", 1406, "subset(A, B) & size(A, CA) & size(B, CB) & CA = CB & A neq B is unsatisfiable", "A sub B; A = {p}; B = {q}; A != B").note("one element"),
    sat("Section 8.1", 1436, "A = {N8}, B = C = {N7, ..., N1}, all different",
        "A = {h}; B = {a, b, c, d, e, f, g}; C = {a, b, c, d, e, f, g}; C sub B; a != b; a != c; a != d; a != e; a != f; a != g; b != c; b != d; b != e; b != f; b != g; c != d; c != e; c != f; c != g; d != e; d != f; d != g; e != f; e != g; f != g"),
    sat("Section 9", 1493, "un({X, Y}, {V, W}, int(M, 5)) & M is X - Y: X = 4, Y = 2, V = 5, W = 3, M = 2",
        "[2, 5] = {x, y} + {v, w}; x = 4; y = 2").solutions(&["x=4 y=2 v=5 w=3", "x=4 y=2 v=3 w=5"])
        .note("M = 2 put in; the second solution has V and W exchanged"),
    sat("Section 9", 1473, "int(m, n) where m > n denotes the empty set", "A = [3, 1]").solutions(&["A={}"]),
    sat("Section 9", 1512, "setmin({2, 5, -1, 9, 0}, M): M = -1", "S = {2, 5, -1, 9, 0}; -1 in S; S sub [-1, 9]"),
    unsat("Section 9", 1512, "setmin({2, 5, -1, 9, 0}, M): M = -1", "S = {2, 5, -1, 9, 0}; 0 in S; S sub [0, 9]").note("M = 0"),
    sat("Section 9", 1537, "setmin({2, X, -1, 9, 0}, M): M = -1 with -1 =< X", "S = {2, x, -1, 9, 0}; -1 in S; S sub [-1, 9]; x in [-3, 1]")
        .solutions(&["x=-1", "x=0", "x=1"]).note("for X in [-3, 1]"),
    unsat("Section 9", 1547, "setmin(S, M) & X in S & X < M: no", "3 in S; S sub [3, 6]; x in S; x in [0, 2]").note("M = 3"),
    sat("Section 9", 1571, "ssucc({2, 5, -1, 9, 0}, 5, M): M = 9",
        "A = {2, 5, -1, 9, 0}; A = {5, 9 | B}; 5 notin B; 9 notin B; B = I + J; I || J; I sub [-1, 4]; J sub [10, 12]")
        .solutions(&["B={-1,0,2} I={-1,0,2} J={}"]).note("the solution is ours"),
    sat("Section 9", 1581, "ssucc({2, 5, -1, 9, 0}, M, 0): M = -1",
        "A = {2, 5, -1, 9, 0}; A = {-1, 0 | B}; -1 notin B; 0 notin B; B = I + J; I || J; I sub [-3, -2]; J sub [1, 9]"),
    unsat("Section 9", 1571, "ssucc({2, 5, -1, 9, 0}, 5, M): M = 9",
        "A = {2, 5, -1, 9, 0}; A = {0, 5 | B}; 0 notin B; 5 notin B; B = I + J; I || J; I sub [-2, -1]; J sub [6, 9]").note("0 and 5: 2 is between them"),
    unsat("Section 9", 1592, "ssucc(S, X, Y) & Z in S & X < Z & Z < Y: no",
        "S = {1, 4 | B}; 1 notin B; 4 notin B; B = I + J; I sub [-1, 0]; J sub [5, 6]; z in S; z in [2, 3]").note("X = 1, Y = 4"),
    unsat("Section 10", 1612, "un({a, 1, {2}, [5, b]}, {X}, {Y / R}): Y = a, R = {1, {2}, [5, b], X}, X neq a",
        "{y | R} = {1, 2, 3, 4} + {x}; y = 1; x != 1; 1 notin R; R != {2, 3, 4, x}").note("1 to 4 for the four elements"),
    sat("Section 10.1.2", 1711, "\"Pele\" nin {\"Messi\", \"Maradona\", \"Di Stefano\"}", "4 notin {1, 2, 3}").note("4 for the first name"),
    unsat("Section 10.1.3", 1763, "t?a = t?b: no", "1 = 2").note("1 and 2 for the two"),
    sat("Section 10.1.3", 1765, "{t?a, t?b} = {t?b, t?a, t?b}: yes", "{1, 2} = {2, 1, 2}"),
    unsat("Section 10.6", 2056, "un3({1, 2, 3}, {I, J}, {}, Z)", "X = {1, 2, 3} + {i, j}; Z = X + {}; Z != {1, 2, 3, i, j}")
        .note("un3(A, B, C, D) is un(A, B, X) & un(X, C, D), line 2014"),
    sat("Section 11", 2160, "X in {a, b} without cut returns X = a and X = b", "x in {1, 2}").solutions(&["x=1", "x=2"]).note("1 and 2 for a and b"),
];

/// What of each source the twelve kinds cannot say.
const UNWRITTEN: [(&str, &str); 5] = [
    ("000", "intervals with variable ends and sizes that are variables (rules and examples appear at chosen ends and sizes only); <=, < and + themselves; ninteger in (17); (28), (29), (33), (37), (38) as they stand; the interval as an element of a set of sets (line 69); Example 14 and the lemmas of Section 8.3"),
    ("001", "sizes that are variables: (8), (9), (11) to (13), (15), Example 3 to 8 beyond the chosen sizes; the third formula of Example 2 and size({{X}, {Y}}, N), which have sets in sets; x > y and x < y + 1; the mapping of Appendix B"),
    ("002", "the relational and sort rules (Sections 2, 5, 6, 8); (=4), (≠4), (∈7) and find_set, which are about sets in sets; (=14), (≠8), (≠9) with arguments; (4.1) to (4.3), (7.11), (7.12) with variable sizes; variable ends"),
    ("003", "filters other than membership, equality and inequality; pairs: (33) to (36) and Section 6.1 to 6.3; nested quantifiers whose filter is none of these; the termination results"),
    ("004", "relations and partial functions (Section 4), intensional sets (5), arithmetic and sum (7), types (10), control (11) but for the examples above; sets in sets (lines 378, 697, 885); naf; a disjunction as one problem; X in int(1, 100), which has more than 64 terms; variable sizes and ends"),
];

/// A table cell: a bar would end it.
fn cell(text: &str) -> String {
    text.replace('|', "\\|")
}

/// tests/PAPERS.md.
pub fn document() -> String {
    let all = || SOURCES.iter().flat_map(|source| source.rows);
    let mut out = String::from(HEADING);
    out += "\n| source | rows | FORMS | FALSE | rows where it is wrong |\n|---|---|---|---|---|\n";
    let mut counted = |name: &str, rows: &[&Row]| {
        let count = |fits: fn(&Row) -> bool| rows.iter().filter(|row| fits(row)).count();
        out += &format!(
            "| {name} | {} | {} | {} | {} |\n",
            rows.len(),
            count(|row| row.satisfiable),
            count(|row| !row.satisfiable),
            count(|row| !row.wrong.is_empty()),
        );
    };
    for source in &SOURCES {
        counted(&format!("{}, {}", source.file, source.title), &source.rows.iter().collect::<Vec<_>>());
    }
    counted("all", &all().collect::<Vec<_>>());

    for source in &SOURCES {
        out += &format!("\n## {}\n\n", source.file);
        out += "| row | place | line | the source says | problem | verdict | note |\n|---|---|---|---|---|---|---|\n";
        for (at, row) in source.rows.iter().enumerate() {
            let mut notes = Vec::new();
            if !row.wrong.is_empty() {
                notes.push(format!("**the source is wrong**: {}", row.wrong));
            }
            if !row.solutions.is_empty() {
                notes.push(format!("solutions: {}", row.solutions.join(" / ")));
            }
            if let Some((count, of)) = row.count {
                notes.push(format!("{count} solutions in {}", of.replace(' ', ", ")));
            }
            if !row.note.is_empty() {
                notes.push(row.note.to_string());
            }
            out += &format!(
                "| {}.{} | {} | {} | `{}` | `{}` | {} | {} |\n",
                source.file,
                at + 1,
                cell(row.place),
                row.line,
                cell(row.says),
                cell(row.text),
                if row.satisfiable { "FORMS" } else { "FALSE" },
                cell(&notes.join("; ")),
            );
        }
    }

    out += "\n## Where a source is wrong\n\n";
    for source in &SOURCES {
        for (at, row) in source.rows.iter().enumerate().filter(|(_, row)| !row.wrong.is_empty()) {
            out += &format!("- {}.{}, {}, line {}: {}.\n", source.file, at + 1, row.place, row.line, row.wrong);
        }
    }
    out += "\n## What the twelve kinds cannot say\n\n";
    for (file, what) in UNWRITTEN {
        out += &format!("- {file}: {what}.\n");
    }
    out
}

const HEADING: &str = "\
# The source papers' flat examples

Written by the program `papers` from the table in src/papers.rs; a test compares this file with the table. \
Every row is run by the library and by the separate solver, which must agree in every byte, and is decided by trying \
every assignment over a domain that is large enough (src/models.rs).

Notation: `{x | A}` is the source's {x ⊔ A}, `un(A, B, C)` is C = A ∪ B, `inters` and `diff` are ∩ and \\, \
`+` is ∪, `&` is ∩, `||` is disjointness, `sub` is ⊆, `->` is the source's rewriting. \
In a problem a small letter is a number variable, a capital a set variable; `[1, 4]` is an interval. \
A set that has no letter gets one: `B = {x | A}` is `Z = {x}; B = Z + A`, and so on (src/text.rs); \
`papers whole` prints each problem with one statement a constraint.

For a rule `left -> right`, \"left without right\" is a problem that asks for left and for the contrary of right, \
and so on. The line is that of the source's file. The verdict is the meaning's.
";
