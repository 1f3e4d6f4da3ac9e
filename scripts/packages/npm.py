"""The npm package: the library and the program as WebAssembly, for node and browsers on every system."""
from __future__ import annotations

import json

from common import KEYWORDS, LICENSE, NAME, SUMMARY, Member, source, tar, targets, version

README = """# ppdb

{summary}: in node and in browsers, on every system, by WebAssembly. It needs nothing else.

    npx ppdb verify app.pdb

```js
import {{ readFileSync }} from "node:fs";
import {{ verify, lines, run }} from "ppdb";

const file = readFileSync("app.pdb");
console.log(verify(file) ?? "accepted");
console.log(lines(file, [{{ method: 6, offset: 5 }}])[0].startLine);
console.log(run(["show", "app.pdb", "--json"], {{ "app.pdb": file }}).text);
```

`npx ppdb help` lists the commands. The code is proved; what is proved and what is not, also of WebAssembly, is in README.md
and docs/PROMISES.md of the sources.
"""


def manifest() -> bytes:
    told = {
        "name": NAME, "version": version(), "description": SUMMARY, "license": LICENSE, "type": "module",
        "keywords": KEYWORDS.split(),
        "bin": {"ppdb": "program.mjs"},
        "exports": {
            ".": {"types": "./index.d.mts", "default": "./index.mjs"},
            "./load": {"types": "./ppdb.d.mts", "default": "./ppdb.mjs"},
            "./ppdb.wasm": "./ppdb.wasm",
        },
        "engines": {"node": ">=18"},
    }
    return (json.dumps(told, indent=2) + "\n").encode()


def package() -> dict[str, bytes]:
    """The file that `npm install` takes, under its name."""
    loaders = [source(f"bindings/js/{name}", f"package/{name}") for name in ("index.mjs", "index.d.mts", "ppdb.mjs", "ppdb.d.mts")]
    modules = [Member(f"package/{name}", (targets() / "wasm32" / name).read_bytes()) for name in ("ppdb.wasm", "ppdb-program.wasm")]
    texts = [source(name, f"package/{name}") for name in ("LICENSE", "NOTICE")]
    readme = Member("package/README.md", README.format(summary=SUMMARY).encode())
    program = source("bindings/js/program.mjs", "package/program.mjs", is_program=True)
    return {f"{NAME}-{version()}.tgz": tar([Member("package/package.json", manifest()), readme, program, *loaders, *modules, *texts])}
