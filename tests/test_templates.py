"""Templates rendered and checked, against a renderer of this file."""
import os
import random
import re

from harness import got, put, same, start, tool

PIECE = 32_768
MOST_BYTES = 4_194_304
MOST_RENDERED = 16_777_216
PARTS = re.compile(r"\{\{(.*?)\}\}|\{#.*?#\}|\{%[ \t\n\r]*raw[ \t\n\r]*%\}(.*?)\{%[ \t\n\r]*endraw[ \t\n\r]*%\}", re.DOTALL)


def rendered(text, values):
    def part(found):
        if found[1] is not None:
            return values[found[1].strip(" \t\n\r")]
        return found[2] or ""

    return PARTS.sub(part, text)


def random_template(source, names):
    """Lines of a manifest's comments, so that any text of them is a manifest."""
    parts = ["# "]
    for _ in range(source.randrange(30)):
        blank = source.choice(["", " ", "\t  "])
        parts.append(
            source.choice(
                [
                    "plain } text { # ",
                    "\n# ",
                    "{{" + blank + source.choice(names) + blank + "}}",
                    "{# a note {{ of #}",
                    "{%" + blank + "raw %}{{ kept }} {# kept #}{% endraw" + blank + "%}",
                ]
            )
        )
    return "".join(parts)


def test_random_templates_are_rendered():
    source = random.Random(11)
    names = ["a", "_b", "c.d1", "gramine.runtimedir()"]
    for _ in range(40):
        values = {name: source.choice(["", "x", "{{ a }}", "{# no note", "é" * 9]) for name in names}
        text = random_template(source, names)
        put("t", text.encode())
        defined = [word for name in names for word in ("-D", f"{name}=first", f"-D{name}={values[name]}")]
        ran = tool("manifest", *defined, "t")
        same((ran.status, ran.out.decode(), ran.log), (0, rendered(text, values), ""), f"{text!r}: {ran}")


def test_long_texts_go_out_whole_and_in_pieces():
    for size in (PIECE - 1, PIECE, PIECE + 1, 3 * PIECE + 5, MOST_BYTES):
        text = b"#" * size
        put("t", text)
        ran = tool("manifest", "t")
        same((ran.status, len(ran.out), ran.out == text, ran.log), (0, size, True, ""), f"{size} bytes to the output")
        ran = tool("manifest", "t", "m")
        same((ran.status, ran.out, got("m") == text), (0, b"", True), f"{size} bytes to a file")


def test_a_reader_that_goes_away_is_a_fault_of_a_stream():
    put("t", b"#" * MOST_BYTES)
    reading, writing = os.pipe()
    with open("log", "wb") as log:
        program = start("manifest", "t", stdout=writing, stderr=log)
        os.close(writing)
        same(len(os.read(reading, 100)), 100, "the first bytes")
        os.close(reading)
        same((program.wait(timeout=60), got("log")), (7, b"stream fault\n"), "a closed pipe")


def refused(text, said, *words):
    put("t", text)
    ran = tool("manifest", *words, "t", "m")
    same((ran.status, ran.out, ran.log), (3, b"", f"refused {said}\n"), f"{text[:60]!r}: {ran}")
    same(os.path.exists("m") or os.path.exists("m.new"), False, "a file of a refused text")


def test_values_comments_and_raw_text_are_rendered():
    """Each behind a mark that makes the text a comment of a manifest."""
    words = ["-Da=1", "-Dgramine.libos=/a", "-Df()={{ a }}", "-Dgramine.libos=/b/libsysdb.so"]
    rows = {
        "{# note #}hello\nloader.entrypoint = \"file:{{ gramine.libos }}\"\n": "hello\nloader.entrypoint = \"file:/b/libsysdb.so\"\n",
        "": "",
        "é{{a}}é\n": "é1é\n",
        "{{\t\r\na }}}": "1}",
        "{{ f() }}": "{{ a }}",
        "{ { a } } %} #} }}": "{ { a } } %} #} }}",
        "{# {{ a }} {% raw %} #}": "",
        "{% raw %}{{ é }}{% endraw{%\tendraw\n%}{{ a }}": "{{ é }}{% endraw1",
        "{%raw%}{%endraw%}": "",
    }
    for template, text in rows.items():
        put("t", f"# {template}".encode())
        ran = tool("manifest", *words, "t")
        same((ran.status, ran.out.decode(), ran.log), (0, f"# {text}", ""), template)


def test_templates_are_refused_at_their_first_place():
    rows = {
        "a {{ x }}": "unknown x at 2",
        "{% for i in x %}": "statement at 0",
        "{{ a": "unclosed at 0",
        "{{ a + b }}": "name at 0",
        "é{{ b c }}": "name at 2",
        "{{ }}": "name at 0",
        "{{ a }}{#}": "unclosed at 7",
        "{% raw }": "unclosed at 0",
        "{% raw %}{% end raw %}{%endraw}": "unclosed at 0",
        "{% endraw %}{{ x }}": "statement at 0",
        "{{ a }}{{ f() }}{%": "unknown f() at 7",
        "{%" * 500_000: "unclosed at 0",
    }
    for text, said in rows.items():
        refused(text.encode(), f"template {said}", "-Da=1")
    refused(b"\xff", "template not utf-8")
    same(tool("manifest", "none", "m").log, "refused not found none\n", "an absent template")
    put("t", b"{{ a }}" * 150_000)
    ran = tool("manifest", "-Da=#", "t")
    same((ran.status, ran.out, ran.log), (0, b"#" * 150_000, ""), "many values")
    put("-", b"{{c}}")
    ran = tool("manifest", "-D", "a=b", "-Dc=", "-")
    same((ran.status, ran.out, ran.log), (0, b"", ""), "a template by the name -, and a value of no text")


def test_names_of_values_are_parts_joined_by_points():
    put("t", b"")
    for name in ["a", "_", "a9.b_c", "gramine.runtimedir()", "A.Z()"]:
        ran = tool("manifest", f"-D{name}=x", "t")
        same((ran.status, ran.out, ran.log), (0, b"", ""), name)
    for name in ["", "()", "9", "a.", ".a", "a..b", "a b", "a()()", "a().b", "a(", "é", "a-b"]:
        same(tool("manifest", f"-D{name}=x", "t").status, 2, name)


TWO_SUMS = f"""sgx.trusted_files = [
  "file:a",
  {{ uri = "file:./a", sha256 = "{"07" * 32}" }},
  {{ uri = "file:b/../a", sha256 = "{"17" * 32}" }},
]"""


# Texts that are no manifest, by what is said of each.
OF_TABLES = {
    "not toml": ["a = ", "a = 1\na = 2", "a = " + "[" * 100_000 + "]" * 100_000],
    "field a": ["a = 1.5", "a = 2024-01-01"],
    "field x.y[1][0]": ["sgx = 1\nx.y = [ 1, [ 2.5 ] ]"],
    "field a[1].y": ["b = 1.5\na = [ 1, { z = 1.5, y = 1.5 } ]"],
    "field a" + "[0]" * 32: ["a = " + "[" * 33 + "]" * 33],
    "field a" + ".a" * 32: ["a" + ".a" * 32 + " = 1"],
    "field sgx": ["sgx = 1\nfs = 2"],
    "field fs": ["fs = 2"],
    "field sgx.file_check_policy": ["sgx.file_check_policy = 1"],
    "policy all": ['sgx.file_check_policy = "all"'],
    "field sgx.allowed_files[1]": ['sgx.allowed_files = [ "file:a", 1 ]'],
    "uri a": ['sgx.allowed_files = [ "a" ]'],
}
OF_TRUSTED_FILES = {
    "field sgx.trusted_files": ['sgx.trusted_files = "file:a"'],
    "field sgx.trusted_files[1]": ['sgx.trusted_files = [ "file:a", 1 ]'],
    "field sgx.trusted_files[0].uri": ["sgx.trusted_files = [ { sha256 = 1 } ]"],
    "uri dev:a": ['sgx.trusted_files = [ { uri = "dev:a", sha256 = 1 } ]'],
    "field sgx.trusted_files[0].sha256": ['sgx.trusted_files = [ { uri = "file:a", sha256 = 1 } ]'],
    "sum file:a": ['sgx.trusted_files = [ { uri = "file:a", sha256 = "00" } ]'],
    "uri file:a/": ['sgx.trusted_files = [ "file:a/" ]'],
    "uri http:x": ['sgx.trusted_files = [ "http:x" ]'],
    "sum file:x": ['sgx.trusted_files = [ { uri = "file:x", sha256 = "0" } ]'],
    "uri file:": ['sgx.trusted_files = [ "file:" ]'],
    "two sums file:b/../a": [TWO_SUMS],
}
OF_MOUNTS_AND_KEYS = {
    "field fs.root": ["fs.root = 1"],
    "field fs.root.type": ["fs.root.type = 1"],
    "field fs.root.uri": ["fs.root.uri = 1"],
    "uri file:": ['fs.root.uri = "file:"', 'fs.mounts = [ { path = "/a", uri = "file:" } ]'],
    "field fs.mounts": ["fs.mounts = 1"],
    "field fs.mounts[0]": ["fs.mounts = [ 1 ]"],
    "field fs.mounts[0].type": ["fs.mounts = [ { type = 1 } ]"],
    "field fs.mounts[0].path": ['fs.mounts = [ { path = "a", uri = "file:a" } ]'],
    "field fs.mounts[0].uri": ['fs.mounts = [ { path = "/a" } ]', 'fs.mounts = [ { path = "/", uri = 1 } ]'],
    "field fs.mounts[0].key_name": ['fs.mounts = [ { path = "/a", uri = "file:a", key_name = 1 } ]'],
    "field fs.insecure__keys": ["fs.insecure__keys = 1"],
    "field fs.insecure__keys.a": ["fs.insecure__keys.a = 1"],
    "key a": ['fs.insecure__keys.b = "1"\nfs.insecure__keys.a = "2"'],
}


def test_texts_without_a_manifest_are_refused():
    for rows in (OF_TABLES, OF_TRUSTED_FILES, OF_MOUNTS_AND_KEYS):
        for said, texts in rows.items():
            for text in texts:
                refused(text.encode(), f"manifest {said}")
    put("t", b"\xef\xbb\xbfa = " + b"[" * 32 + b"]" * 32)
    same((tool("manifest", "t").status, tool("manifest", "t").out), (0, got("t")), "a byte order mark, and 32 lists in each other")


def test_bytes_are_a_manifest_or_none():
    for text in (b'a = "\xff"', b"\xef\xbb\xbfa", b"a\0"):
        put("m", text)
        ran = tool("sums", "m")
        same((ran.status, ran.out, ran.log), (3, b"", "refused manifest not toml\n"), text)
    long = b'a = "' + b"0123456789abcdef" * 262_143 + b'"'
    many = ",\n".join(f'{{ uri = "file:d/{k}", sha256 = "{k:064}" }}' for k in range(30_000))
    for text, lines in (
        (b"\xef\xbb\xbfa = 1", ""),
        (b"\xef\xbb\xbfa = " + b"[" * 32 + b"]" * 32, ""),
        (long, ""),
        (f"sgx.trusted_files = [\n{many}\n]".encode(), "".join(f"{k:064}  file:d/{k}\n" for k in range(30_000))),
    ):
        put("m", text)
        ran = tool("sums", "m")
        same((ran.status, ran.out, ran.log), (0, lines.encode(), ""), text[:60])


def test_a_template_and_its_text_have_a_limit():
    refused(b"#" * (MOST_BYTES + 1), "too large")
    value = 65_536
    places = MOST_RENDERED // value
    words = [f"-Dq={'#' * value}", "-De="]
    put("t", b"{{q}}" * places + b"{{e}}")
    ran = tool("manifest", *words, "t")
    same((ran.status, len(ran.out), ran.log), (0, MOST_RENDERED, ""), "the longest text")
    end = 5 * places
    for behind, at in (("{{q}}", end), ("##", end), ("x{{", end), ("{{e}}{%raw%}é{%endraw%}", end + 5)):
        refused(b"{{q}}" * places + behind.encode(), f"template too long at {at}", *words)
    refused(b"#" + b"{{q}}" * places, f"template too long at {end - 4}", *words)
