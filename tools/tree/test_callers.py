#!/usr/bin/env python3
"""Tests tools/tree/sources.py, which reads sources, and tools/tree/callers.py, which says what bodies call, on small crates.

    tools/tree/test_callers.py [NAME ..]

It takes a few seconds, and needs no toolchain."""

import pathlib
import tempfile
import unittest
from unittest import mock

import callers
import sources

# A crate that others use: a type with its functions, a trait, and functions that take and give it.
LOW = """
pub struct Made { octets: Vec<u8>, inner: Inner }
pub struct Inner(u8);
pub enum Kind { Small, Large(Made) }

impl Made {
    pub fn new(octets: &[u8]) -> Result<Made, Fault> { loop {} }
    pub fn inner(&self) -> &Inner { loop {} }
    pub fn parts(&self) -> (Inner, Kind) { loop {} }
    pub fn list(&self) -> Vec<Inner> { loop {} }
    pub fn look(&self) {}
}

impl Inner {
    pub fn sized(&self) -> usize { 0 }
    pub fn look(&self) {}
}

pub struct Fault;
impl Fault {
    pub fn look(&self) {}
}
impl Display for Fault {
    fn fmt(&self, f: &mut Formatter) -> fmt::Result { loop {} }
}

pub trait Shown {
    fn shown(&self) -> Inner;
}
impl Shown for Made {
    fn shown(&self) -> Inner { loop {} }
}

pub struct Items;
impl Iterator for Items {
    type Item = Inner;
    fn next(&mut self) -> Option<Self::Item> { loop {} }
}

pub type Both = (Inner, Made);
pub const ONE: Inner = Inner(1);

pub fn first<T>(items: Vec<T>) -> Option<T> { loop {} }
pub fn held<T>(item: T) -> T { item }
pub fn printed<T: Display>(item: T) {}
pub fn count() -> usize { 0 }
pub fn done() {}
"""
USES = "use low::{count, done, first, held, printed, Both, Fault, Inner, Items, Kind, Made, Shown, ONE};\n"
# Names of these types, for bodies.
HELD = "made: &Made, boxed: Box<Made>, both: Both, items: Items, fault: Fault, other: Result<u8, u8>, kind: Kind, text: &str, n: usize"


class InTree(unittest.TestCase):
    """A tree of crates in a folder of its own."""

    def tree(self, **texts):
        """A tree with these crates, each of which uses those before it."""
        room = tempfile.TemporaryDirectory(prefix="test callers ")
        self.addCleanup(room.cleanup)
        self.top = pathlib.Path(room.name)
        names = list(texts)
        rows = [f"{name}: {' '.join(names[:place])}\n" for place, name in enumerate(names)]
        (self.top / "crates.txt").write_text("# Lowest first.\n" + "".join(rows), encoding="utf-8")
        for name, text in texts.items():
            folder = self.top / "crates" / name / "src"
            folder.mkdir(parents=True)
            (folder / "lib.rt").write_text(text, encoding="utf-8")
        for name, value in ("TOP", self.top), ("CRATES", self.top / "crates"):
            patched = mock.patch.object(sources, name, value)
            patched.start()
            self.addCleanup(patched.stop)
        return sources.Tree()

    def bodies(self, body, words=None, front="", parameters="", **more):
        """What is found in the body of a function of a crate above LOW."""
        text = f"{USES}{front}\npub fn run({parameters}) {{ {body} }}\n"
        tree = self.tree(low=LOW, **more, high=text)
        found = callers.Bodies(callers.Index(tree), "high", words)
        found.run()
        return found

    def uses(self, body, **how):
        """The uses in such a body, which has to be read to its end."""
        found = self.bodies(body, **how)
        self.assertEqual([], found.faults)
        return [use for use in found.uses if use.inside.name == "run"]

    def called(self, body, **how):
        """The names of what such a body calls, each with its type's."""
        return [name_of(use) for use in self.uses(body, **how)]


def name_of(use):
    """The name of what a use calls, behind that of its type."""
    owner = getattr(use.function, "owner", None)
    if owner is None:
        return use.function.name
    return f"{(owner.target.head[-1] if owner.target else owner.name)}::{use.function.name}"


class Sources(InTree):
    """How sources are read."""

    def item(self, text):
        """The item that a text is."""
        item, = self.tree(one=text).crates["one"].root.items
        return item

    def test_a_function(self):
        found = self.item("""
            /// Says nothing.
            #[must_use]
            pub fn f<'a, T: Copy + 'a, const N: usize>(mut one: &'a mut [T; N], (two, _): (u8, T)) -> Result<Option<T>, Fault>
            requires { N ≡ 1 } ensures result { IsOk result → { one.new ≡ one.old } },
            { let text = "}"; text }""")
        self.assertEqual(("fn", "f", True), (found.kind, found.name, found.public))
        self.assertEqual(["T", "N"], [parameter.name for parameter in found.generics])
        self.assertEqual(("Copy",), found.generics[0].bounds[0].head)
        self.assertEqual(["[]", "()"], [type_.head for _, type_ in found.parameters])
        self.assertEqual((("Result",), ("Option",)), (found.result.head, found.result.args[0].head))
        self.assertEqual([("requires", ""), ("ensures", "result")], [(clause.kind, clause.name) for clause in found.clauses])
        self.assertIn("one.new ≡ one.old", found.clauses[1].text)
        self.assertEqual(["let", "text", "=", '"}"', ";", "text"], [token.text for token in found.body])
        self.assertTrue(found.changes)
        self.assertEqual(["must_use"], found.attributes)

    def test_a_function_for_c(self):
        found = self.item("""#[unsafe(no_mangle)] pub extern "C" fn f(text: &[u8], alloc: Global, out: &mut [u8]) -> i32 { 0 }""")
        self.assertEqual(("fn", "f", True, True), (found.kind, found.name, found.public, found.is_export))
        self.assertFalse(self.item("pub fn f() {}").is_export)

    def test_static_libraries_have_one_name(self):
        self.tree(one="pub fn f() {}")
        (self.top / "crates.txt").write_text("one:\ntwo staticlib: one\n", encoding="utf-8")
        self.assertEqual({"one": [], "two": ["one"]}, sources.crates_in_order())

    def test_what_changes_nothing(self):
        self.assertFalse(self.item("fn f(mut one: u8, two: &u8) {}").changes)
        self.assertTrue(self.item("fn f(one: &mut u8) {}").changes)

    def test_types(self):
        found = self.item("pub struct S<T> { ghost view: { u8 }, pub(crate) one: Option<&'static T>, two: [u8; 4], #[x] three: (u8) }")
        self.assertEqual(["one", "two", "three"], list(found.fields))
        self.assertEqual(("u8",), found.fields["three"].head)
        self.assertEqual(["0", "1"], list(self.item("struct S(pub u8, Vec<u8>);").fields))
        variants = self.item("enum E { One, Two(u8, u8), Three { a: u8 }, Four = 4 }").variants
        self.assertEqual({"One": [], "Two": ["0", "1"], "Three": ["a"], "Four": []}, {name: list(of) for name, of in variants.items()})

    def test_traits_and_implementations(self):
        trait = self.item("pub trait T: Copy + U { ghost law: { x }; type Item; const N: usize; fn f(&self); }")
        self.assertEqual([("Copy",), ("U",)], [bound.head for bound in trait.bounds])
        self.assertEqual((["law"], ["f"]), (trait.ghosts, [function.name for function in trait.functions]))
        found = self.item("impl<T> Iterator for S<T> { type Item = T; fn next(&mut self) -> Option<T> { None } }")
        self.assertEqual((("Iterator",), ("S",)), (found.trait.head, found.target.head))
        self.assertEqual({"Item": ("T",)}, {name: type_.head for name, type_ in found.types.items()})
        self.assertTrue(found.functions[0].takes_self)
        self.assertIs(found, found.functions[0].owner)

    def test_constants_and_aliases(self):
        self.assertEqual(("u64",), self.item("pub const MOST: u64 = { 1; 2 };").result.head)
        self.assertEqual(("Result",), self.item("type Answer<T> = Result<T, Fault>;").target.head)

    def test_what_is_unknown_stops(self):
        for text in (
                "union U { a: u8 }", "fn f(a: <T as U>::V) {}", "fn f() ensures result { {", "mod inside { }", "pub use inside::*;",
                "impl T for U where U: V {}", "fn f<F: Fn(u8) -> u8>(f: F) {}", "const fn f() {}", "impl T { union U {} }"):
            with self.subTest(text), self.assertRaises(sources.Unknown):
                self.tree(one=text)

    def test_names_that_a_crate_hands_out(self):
        tree = self.tree(low=LOW, high=f"{USES}pub use low::Made as Other; pub use self::own as again; pub fn own() {{}} fn hidden() {{}}")
        self.assertEqual({("Other",), ("again",), ("own",)}, set(tree.exports("high")))
        self.assertIs(tree.exports("low")[("Made",)], tree.exports("high")[("Other",)])

    def test_modules(self):
        self.tree(one="")
        source = self.top / "crates" / "one" / "src"
        (source / "lib.rt").write_text("pub mod inner;\nuse crate::inner::*;\npub use inner::own;\n", encoding="utf-8")
        (source / "inner.rt").write_text("pub fn own() {}\npub fn other() {}", encoding="utf-8")
        tree = sources.Tree()
        self.assertEqual({("own",), ("inner", "own"), ("inner", "other")}, set(tree.exports("one")))
        root = tree.crates["one"].root
        self.assertEqual("other", tree.find(root, ("other",)).name)
        self.assertEqual("own", tree.find(root.names["inner"], ("super", "own")).name)

    def test_definitions(self):
        self.tree(one="")
        file = self.top / "Words.antt"
        file.write_text("use Rattle.one.specs.Other.{word, second as other}\n\n-- a comment\npub IsWord : Octets → Prop\n"
                        "IsWord octets = word octets\n  ∧ other octets\n\npub record Pair : Set where\n  pub one : Octets\n",
                        encoding="utf-8")
        imports, found = sources.definitions(file, "one")
        self.assertEqual({"word": ("Rattle", "one", "specs", "Other", "word"), "other": ("Rattle", "one", "specs", "Other", "second")},
            imports)
        by_name = sources.merged(found)
        self.assertEqual("pub IsWord : Octets → Prop", by_name["IsWord"].type)
        self.assertIn("∧ other octets", by_name["IsWord"].text)
        self.assertEqual("pub record Pair : Set ", by_name["Pair"].type)


class Calls(InTree):
    """Which functions a body calls."""

    def test_functions(self):
        self.assertEqual(["count", "done"], self.called("let n = count() + 1; done(); n"))
        self.assertEqual(["count"] * 2, self.called("low::count() as u64; elsewhere().field; count();"))

    def test_functions_of_a_type(self):
        self.assertEqual(["Made::new", "Made::look"], self.called('Made::new(b"a")?.look();'))

    def test_methods_by_the_types_of_names(self):
        for body in (
                "made.inner().sized();", "let inner = made.inner(); inner.sized();", "let inner: &Inner = made.inner(); (*inner).sized();",
                "let (inner, _) = made.parts(); inner.sized();", "made.parts().0.sized();", "made.list()[0].sized();",
                "for inner in made.list() { inner.sized(); }", "made.list().iter().map(|inner| inner.sized());",
                "if let Some(inner) = made.list().first() { inner.sized(); }", "let Some(inner) = made.list().pop() else { return };"
                " inner.sized();", "match made.list().last() { Some(inner) if true => inner.sized(), _ => 0 };",
                "let pushed = Vec::new(); pushed.push(made.shown()); pushed[0].sized();",
                "while let Some(i) = made.list().pop() { i.sized(); }",
                "held(made.shown()).sized();", "first(made.list()).unwrap().sized();",
                "(if true { made.shown() } else { loop {} }).sized();"):
            with self.subTest(body):
                use = self.uses(body, parameters="made: &Made")[-1]
                self.assertEqual(("Inner::sized", False), (name_of(use), use.by_name))

    def looked(self, owner, *bodies):
        """In each body the last call is `look` of this type, which three types have, so that no call is told by its name."""
        for body in bodies:
            with self.subTest(body):
                self.assertEqual([f"{owner}::look"], self.called(body, parameters=HELD)[-1:])

    def test_what_std_gives(self):
        self.looked(
            "Inner", "made.list().pop().ok_or(fault)?.look();", "made.list().to_vec()?[0].look();", "made.list()[1..][0].look();",
            "for (_, i) in made.list().iter().enumerate() { i.look(); }", "vec![made.shown()]?[0].look();", "items.next()?.look();",
            "for (_, i) in text.lines().zip(made.list().iter()) { i.look(); }", "for i in items { i.look(); }",
            "if let Some((i, _)) = made.list().split_first() { i.look(); }", "for c in made.list().chunks(2) { c[0].look(); }",
            "if let Some((_, rest)) = made.list().split_first() { rest[0].look(); }", "Box::new(made.shown())?.look();",
            "let (a, _) = made.list().split_at(1); a[0].look();", "text.parse::<Inner>()?.look();", "boxed.inner.look();",
            "made.list().pop().and_then(|i| Some(i))?.look();", "made.list().iter().rev().skip(1).next()?.look();")
        self.looked("Made", "boxed.look();", "if let Some(m) = Made::new(b).ok() { m.look(); }", "both.1.look();")
        self.looked(
            "Fault", "if let Some(f) = Made::new(b).err() { f.look(); }", "if let Err(f) = other.map_err(|_| fault) { f.look(); }",
            "if let Err(f) = made.list().pop().ok_or(fault) { f.look(); }", "let Err(f) = Made::new(b) else { return }; f.look();")

    def test_texts_and_numbers_are_no_types_of_these(self):
        for front in (
                'text.split("a").next()?', 'text.strip_prefix("a")?', 'text.split_once("a")?.0', "text.trim()", "text.as_bytes()",
                "n.len()",
                "n.is_empty()", "n.to_be_bytes()", "text.parse::<u8>()?", "hex::encode(n)?", "env::args()?.next()?", "made.list().len()",
                '"text"', "b'a'", 'b"a"', "7", "true", "(n == 1)", "!n", "text.chars().count()"):
            with self.subTest(front):
                found = self.bodies(f"{front}.look();", parameters=HELD)
                self.assertEqual(([], [], []), ([use for use in found.uses if use.function.name == "look"], found.unknown, found.faults))

    def test_patterns(self):
        self.looked(
            "Inner", "if let [i, ..] = made.list() { i.look(); }", "match kind { Kind::Large(Made { inner: i, .. }) => i.look(), _ => () }",
            "match made.parts() { (i, Kind::Small) | (i, _) => i.look() }", "let (i, ..) = made.parts(); i.look();",
            "match (n, made.shown()) { (0 | -1, _) => (), (2..=5, _) => (), (_, ref i) => i.look() }",
            "match text { 'a'..='z' => (), \"a\" => (), _ => made.shown().look() }")
        self.assertEqual(["count"], self.called("if let [one, rest @ ..] = list { elsewhere(rest); count(); }"))

    def test_self(self):
        front = ("pub struct Own(Made); impl Own { fn own(self) -> Self { loop {} } fn run(&self) { self.own().0.look(); "
                 "Self::own(self).0.look(); let Self(made) = self; made.look(); } }")
        self.assertEqual(["Own::own", "Made::look"] * 2 + ["Made::look"], [name_of(use) for use in self.bodies("", front=front).uses])

    def test_paths(self):
        self.looked("Inner", "ONE.look();", "Shown::shown(made).look();", "<Made as Shown>::shown(made).look();",
            "[made.shown(); 2][0].look();")
        self.looked("Made", "match Kind::Large(n) { Kind::Large(m) => m.look(), _ => () }", "unsafe { made.look() }",
            "'a: loop { made.look(); }")
        body = ("let n = count() as u64; let m = Made { octets: count(), ..held(n) }; "
                "if n { count(); } else if m { count(); } else { done() }")
        self.assertEqual(["count", "count", "held", "count", "count", "done"], self.called(body))

    def test_fields_and_variants(self):
        for body in "made.inner.sized();", "let Made { inner, .. } = made; inner.sized();":
            use, = self.uses(body, parameters="made: Made")
            self.assertEqual(("Inner::sized", False), (name_of(use), use.by_name))
        body = "match kind { Kind::Small => (), Kind::Large(made) => made.look() }"
        self.assertEqual(["Made::look"], self.called(body, parameters="kind: &Kind"))

    def test_what_a_trait_asks_for(self):
        self.assertEqual(["Made::shown"], self.called("made.shown();", parameters="made: &Made"))
        front = "pub fn of<T: Shown>(one: &T) { one.shown().sized(); T::shown(one); }"
        found = self.bodies("", front=front)
        self.assertEqual(["Shown::shown", "Inner::sized", "Shown::shown"], [name_of(use) for use in found.uses])

    def test_by_name_where_the_type_is_unknown(self):
        use, = self.uses("elsewhere().sized();")
        self.assertTrue(use.by_name)
        found = self.bodies("elsewhere().look();")
        self.assertEqual(([], ["look"]), (found.uses, [name for name, _, _ in found.unknown]))

    def test_closures_and_macros(self):
        body = 'list.map(|n: usize| made.look()); assert!(matches!(made.parts(), (_, Kind::Small) if count() == 1), "{}", n);'
        self.assertEqual(["Made::look", "Made::parts", "count"], self.called(body, parameters="made: &Made"))

    def test_signs(self):
        body = "let n = -1 + count() * 2 << 3 >= 4 && !(count() == 1) || *b != c; n += count(); a[..count()]; 0..=count();"
        self.assertEqual(["count"] * 5, self.called(body))

    def test_types_of_generic_calls(self):
        for body in ("held(made);", "held::<Made>(elsewhere());", "let one: Made = made; held(one);"):
            with self.subTest(body):
                use, = self.uses(body, parameters="made: Made")
                self.assertEqual("Made", use.at["T"].head.name)

    def test_what_is_printed(self):
        for body in ('format!("{fault}");', 'println!("{}", fault);', 'write!(out, "{0}", fault)?;', "fault.to_string();",
                "printed(fault);"):
            with self.subTest(body):
                self.assertIn("Fault::fmt", self.called(body, parameters="fault: Fault"))

    def test_a_body_that_is_not_known_is_told(self):
        for body in ("struct S;", "let f = |n| n;", "#[x] count();", "break 'outer;", "match n { n @ 1 => n }", "S::T { n: 1 };"):
            with self.subTest(body):
                found = self.bodies(body)
                self.assertEqual(1, len(found.faults))
                self.assertIn("run", found.faults[0])


class Counted(InTree):
    """Which calls count."""

    def dropped(self, body, **how):
        """Whether the answer of the one call in a body is dropped."""
        use, = self.uses(body, **how)
        return use.is_dropped

    def test_dropped_answers(self):
        for body in ("count();", "let _ = count();", "let unread = count();", "let _unread = count(); _unread;", "{ let n = count(); }"):
            with self.subTest(body):
                self.assertTrue(self.dropped(body))

    def test_answers_that_go_on(self):
        for body in ("count()", "let n = count(); n", "return count();", "let n = count(); if n == 1 { }", "assert_eq!(count(), 1);",
                     "let n = count(); list.map(|_| n);", "elsewhere(count());", "if count() == 1 { }",
                     "let n = count(); elsewhere(S { n });"):
            with self.subTest(body):
                self.assertFalse(self.dropped(body))

    def test_arms_for_texts_of_no_stored_case(self):
        body = 'match word { "known" => elsewhere(count()), "unknown" | "neither" => elsewhere(count()), _ => elsewhere(count()) }'
        reached = lambda words: [use.is_reached for use in self.uses(body, words=words, parameters="word: &str")]
        self.assertEqual([True, False, True], reached({"known"}))
        self.assertEqual([True, True, True], reached({"known", "neither"}))
        self.assertEqual([True, True, True], reached(None))

    def test_words_of_stored_cases(self):
        self.tree(one="")
        folder = self.top / "crates" / "one"
        self.assertIsNone(callers.words_of_cases(folder))
        (folder / "data").mkdir()
        (folder / "data" / "cases.txt").write_text("name-1 call_of_two,05 00\n", encoding="utf-8")
        words = callers.words_of_cases(folder)
        self.assertLessEqual({"name-1", "call_of_two", "call", "of_two", "call_of", "two", "05"}, words)

    def test_a_derived_display_stands_for_its_type(self):
        front = "#[derive(Debug, Error)]\npub enum Own { One }\n"
        use, = self.uses('format!("{own}");', front=front, parameters="own: Own")
        self.assertEqual("Own", use.function.name)


if __name__ == "__main__":
    unittest.main()
