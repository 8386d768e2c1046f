"""Names on disk, labels and patterns."""

import re

import pytest
from hypothesis import given, settings
from hypothesis import strategies as st
from sefgulaw.names import BadLabel, BadPattern, Label, Path, Pattern, decode, encode, fits

SEGMENT = re.compile(r"[A-Za-z0-9_.-]+")
names = st.one_of(
    st.binary(min_size=1, max_size=40).map(
        lambda name: name.replace(b"/", b"a").replace(b"\0", b"b")
    ),
    st.lists(
        st.sampled_from([b"_", b"__x", b"5f", b"x", b"ff", b"\xff", b"+", b"a"]), min_size=1
    ).map(b"".join),
)


@settings(max_examples=10_000, deadline=None)
@given(names)
def test_each_name_comes_back_and_is_in_the_grammar(name: bytes) -> None:
    path = encode(name)
    assert SEGMENT.fullmatch(path)
    assert decode(path) == name


@settings(max_examples=2_000, deadline=None)
@given(names, names)
def test_different_names_have_different_paths(one: bytes, other: bytes) -> None:
    assert (encode(one) == encode(other)) == (one == other)


def test_plain_names_are_not_changed() -> None:
    assert encode(b"a/b-c/BUILD.bazel") == "a/b-c/BUILD.bazel"
    assert encode(b"__xyz") == "__xyz"


def test_odd_names_by_hand() -> None:
    assert encode(b"c++.c") == "c__x2b__x2b.c"
    assert encode(b"a b\xff") == "a__x20b__xff"
    assert encode(b"__x2b") == "__x5f_x2b"
    assert decode("__x5f_x2b") == b"__x2b"


def test_a_path_of_255_bytes_fits() -> None:
    assert fits(Path("a" * 255))
    assert not fits(Path("a" * 256))


@pytest.mark.parametrize(
    ("text", "package", "expected"),
    [
        ("//a:b", "", "//a:b"),
        ("//a/b", "", "//a/b:b"),
        ("//:b", "x", "//:b"),
        (":b", "a", "//a:b"),
        ("b/c", "a", "//a:b/c"),
        ("//a:c++.c", "", "//a:c++.c"),
        ("@//a:b", "", "//a:b"),
        ("@@//a:b", "", "//a:b"),
    ],
)
def test_labels(text: str, package: str, expected: str) -> None:
    label = Label.read(text, package)
    assert isinstance(label, Label)
    assert str(label) == expected


@pytest.mark.parametrize(
    ("text", "why"),
    [
        ("//a//b", "a package name has no empty part"),
        ("//a/../b", "a package name has no part '..'"),
        ("//a:", "a label has the name of a target"),
        ("//", "a label has the name of a target"),
        ("@repo//a:b", "labels of other repositories are not read"),
        ("/a", "a label begins with two slashes or with none"),
        ("//a:b//c", "a target's name has no empty part"),
        ("//" + "a" * 256, "a package name has at most 255 bytes"),
        ("//" + "a" * 200 + ":" + "b" * 100, "a label has at most 255 bytes"),
    ],
)
def test_bad_labels_are_sentences(text: str, why: str) -> None:
    label = Label.read(text, "")
    assert isinstance(label, BadLabel)
    assert str(label) == f'"{text}": {why}'


@pytest.mark.parametrize(
    ("text", "at", "expected"),
    [
        ("//a", "", "//a"),
        ("//a:b", "", "//a:b"),
        ("//a:all", "", "//a"),
        ("//a:*", "", "//a"),
        ("//a/...", "", "//a/..."),
        ("//...", "x", "//..."),
        ("...", "x", "//x/..."),
        (":b", "a", "//a:b"),
        ("a/...", "", "//a/..."),
        ("a/...", "x", "//x/a/..."),
        ("-//a/...", "", "-//a/..."),
        ("a/", "", "//a"),
        ("a/BUILD", "", "//a"),
        ("BUILD.bazel", "x", "//x"),
        ("//a/BUILD.bazel", "", "//a"),
        (".", "x/y", "//x/y"),
        ("../z", "x/y", "//x/z"),
        ("./z", "", "//z"),
        ("//:b", "x", "//:b"),
        ("//...:all", "", "//..."),
        ("//a b:c+", "", "//a b:c+"),
    ],
)
def test_patterns(text: str, at: str, expected: str) -> None:
    pattern = Pattern.read(text, at)
    assert isinstance(pattern, Pattern)
    assert str(pattern) == expected


@pytest.mark.parametrize(
    ("text", "why"),
    [
        ("//a//b", "a package name has no empty part"),
        ("///", "a package name has no empty part"),
        ("//a:", "a pattern names a target after its colon"),
        ("", "a pattern names a package or a target"),
        ("-", "a pattern names a package or a target"),
        ("/a", "a pattern begins with two slashes or with none"),
        ("../..", "the directory is not below the root"),
        ("@repo//...", "labels of other repositories are not read"),
        ("//a/...:b", "after '...' comes no name of a target but 'all' and '*'"),
        ("//a:b//c", "a target's name has no empty part"),
    ],
)
def test_bad_patterns_are_sentences(text: str, why: str) -> None:
    pattern = Pattern.read(text, "x")
    assert isinstance(pattern, BadPattern)
    assert str(pattern) == f'"{text}": {why}'


@pytest.mark.parametrize(
    ("pattern", "package", "covered"),
    [
        ("//a", "a", True),
        ("//a", "a/b", False),
        ("//a/...", "a", True),
        ("//a/...", "a/b/c", True),
        ("//a/...", "a-b", False),
        ("//...", "", True),
        ("//...", "a", True),
        ("//:all", "", True),
        ("//:all", "a", False),
    ],
)
def test_which_packages_a_pattern_covers(pattern: str, package: str, covered: bool) -> None:
    read = Pattern.read(pattern, "")
    assert isinstance(read, Pattern)
    assert read.covers(package) is covered
