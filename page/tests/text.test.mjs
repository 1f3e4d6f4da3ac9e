/** Texts: what is seen of them, names that sources give, colours, and lines. */
import assert from "node:assert/strict";
import test from "node:test";
import {colour, statesOf} from "../src/colours.js";
import {guess} from "../src/guesses.js";
import {decoded, linesOf, sharedParts, stateOf, unpacked} from "../src/sources.js";
import {baseName, cutFront, folderOf, nameOf, quoted, seen, sizeWords} from "../src/text.js";
import {chance} from "./program.mjs";

test("controls and marks of direction can be seen", () => {
  assert.equal(seen("a\u202eb\u0007\u007f\u200b\ufeff\udfff"), "a⟨U+202E⟩b␇␡⟨U+200B⟩⟨U+FEFF⟩⟨U+DFFF⟩");
  assert.equal(seen("tab\there, é, 名, 😀"), "tab\there, é, 名, 😀");
  for (let code = 0; code < 0x3000; code++) if (/\p{Cc}|\p{Cf}|\p{Zl}|\p{Zp}/u.test(String.fromCharCode(code)) && code !== 9
    && !/[\u0600-\u0605\u06dd\u070f\u0890\u0891\u08e2]/u
    .test(String.fromCharCode(code))) assert.notEqual(seen(String.fromCharCode(code)), String.fromCharCode(code), code.toString(16));
});
test("names and paths", () => {
  assert.equal(nameOf("\\-"), "");
  assert.equal(nameOf("a\\x20\\xc3\\xa9\\x5c"), "a é\\");
  assert.equal(nameOf("\\xff"), "\ufffd");
  assert.deepEqual(["/a/b.cs", "C:\\x\\y.cs", "z.cs", ""].map(baseName), ["b.cs", "y.cs", "z.cs", "(no name)"]);
  assert.deepEqual(["/a/b.cs", "/b.cs", "C:\\x\\y.cs", "z.cs"].map(folderOf), ["/a", "/", "C:\\x", ""]);
  assert.equal(cutFront("abcdef", 4), "…def");
  assert.equal(quoted("it's"), "'it'\\''s'");
  assert.deepEqual([1, 999, 1500, 2e6, 3e7].map(sizeWords), ["1 byte", "999 bytes", "1.5 kB", "2.0 MB", "30 MB"]);
  assert.deepEqual([sharedParts("src/A/B.cs", "/home/me/src/a/b.cs"), sharedParts("B.cs", "C:\\x\\B.cs"), sharedParts("B.cs", "AB.cs"), sharedParts("../B.cs",
    "/x/B.cs")], [3, 1, 0, 1]);
});
test("names that sources give", () => {
  const named = (text, line, column) => { const all = text.split("\n"); return guess(at => all[at - 1] ?? "", {start_line: line, start_column: column})?.name;
    };
  const source = ["class Order {", "  /// <summary>Adds.</summary>", "  [Pure]", "  public override byte[] Add(int one,", "      int other)", "  {",
    "    return one;", "  }",
    "  public int Total", "  {", "    get { return 1; }", "    set { x = value; }", "  }", "  public string Name => name;", "  public Order() : base(1) { }",
    "  int x = 5;", "  static bool operator ==(Order a, Order b) { return true; }", "  void Each() { Run(x => x + 1); }", "  public int Auto { get; set; }",
    "  async Task Go() {", "    for (int i = 0; i < 3; i++) Run();", "    Func<int> f = () => 5;", "    try { A(); } finally { B(); }", "  }"].join("\n");
  assert.deepEqual([[6, 3], [11, 9], [12, 9], [14, 25], [15, 28], [17, 46], [19, 21], [21, 10], [22, 25], [23, 26]].map(at => named(source, ...at)),
    ["Add()", "Total.get", "Total.set", "Name", "Order()", "operator ==", "Auto.get", "Go()", "lambda f", "finally in Go()"]);
  assert.equal(named(source, 18, 26), "lambda in Each()");
  assert.equal(named("// only\n// comments\n{ }", 3, 1), undefined);
});
test("colours of code", () => {
  const kinds = (text, state = 0, language = "C#") => colour(text, state, language).parts.map(it => `${text.slice(it.from, it.to)}:${it.kind}`);
  assert.deepEqual(kinds('var s = "a // b" + 1.5f; // c'), ["var:keyword", '"a // b":string', "1.5f:number", "// c:comment"]);
  assert.deepEqual(kinds("x */ int", 1), ["x */:comment", "int:keyword"]);
  assert.deepEqual(kinds('@"a""b" if'), ['@"a""b":string', "if:keyword"]);
  assert.deepEqual(kinds("Dim x ' text", 0, "Visual Basic"), ["Dim:keyword", "' text:comment"]);
  assert.deepEqual(kinds("let (* a *) y", 0, "F#"), ["let:keyword", "(* a *):comment"]);
  const text = 'a /* b\nc */ d\n@"e\nf" g\n"""h\ni""" j\nk';
  assert.deepEqual([...statesOf(text, linesOf(text), "C#")], [0, 1, 0, 2, 0, 3, 0]);
});
test("colours end, whatever the text, and their states agree with those of the whole", () => {
  const next = chance(3), signs = ['"', "'", "/", "*", "@", "$", "a", " ", "\\", "(", ")", "\n", '"""', "if"];
  for (let round = 0; round < 2000; round++) {
    const text = Array.from({length: next(24)}, () => signs[next(signs.length)]).join(""), lines = linesOf(text);
    for (const language of ["C#", "Visual Basic", "F#"]) for (let at = 0; at < lines.length; at += 2) {
      const {parts} = colour(text.slice(lines[at], lines[at + 1]), statesOf(text, lines, language)[at / 2], language);
      for (let k = 1; k < parts.length; k++) assert.ok(parts[k].from >= parts[k - 1].to || parts[k].from >= parts[k - 1].from);
    }
  }
});
test("lines end as C# ends them", () => {
  const of = text => { const at = linesOf(text), found = []; for (let k = 0; k < at.length; k += 2) found.push(text.slice(at[k], at[k + 1])); return found; };
  assert.deepEqual(of("a\r\nb\nc\rd\u2028e\u0085"), ["a", "b", "c", "d", "e", ""]);
  assert.deepEqual(of(""), [""]);
});
test("sources are decoded, unpacked and compared", async () => {
  const bytes = text => new TextEncoder().encode(text);
  assert.equal(decoded(new Uint8Array([0xff, 0xfe, 0x61, 0])), "a");
  assert.equal(decoded(bytes("\ufeffé")), "é");
  assert.equal(decoded(new Uint8Array([0xe9])), "é");
  assert.ok("bytes" in await unpacked(new Uint8Array([0, 0, 0, 0, 65])));
  for (const damaged of [[], [1, 0], [9, 0, 0, 0, 255, 255], [255, 255, 255, 255, 1]]) assert.ok("note" in await unpacked(new Uint8Array(damaged)));
  const sha256 = "8829d00f-11b8-4213-878b-770e8597ac16", hash = "ba7816bf8f01cfea414140de5dae2223b00361a396177a9cb410ff61f20015ad";
  assert.equal(await stateOf({algorithm: sha256, hash}, bytes("abc")), "agrees");
  assert.equal(await stateOf({algorithm: sha256, hash}, bytes("abd")), "differs");
  assert.equal(await stateOf({algorithm: "ff1816ec-aa5e-4d10-87f7-6f4963833460", hash: "a9993e364706816aba3e25717850c26c9cd0d89d"}, bytes("abc")), "agrees");
  assert.equal(await stateOf({algorithm: "-", hash: "-"}, bytes("abc")), "unchecked");
});
