"""The packages of NuGet: `ppdb`, the command as a .NET tool, and `PortablePdb`, the library for C# and its kin. Both have native libraries for
Windows and Linux on x86-64 and Linux on arm64, of glibc and of musl."""
from __future__ import annotations

import json
from xml.sax.saxutils import escape

from common import KEYWORDS, LICENSE, NAME, OWNERS, SUMMARY, Member, source, targets, version, zipped

LIBRARY = "PortablePdb"
# The native libraries of the .NET tool, which looks for them beside itself.
PROGRAMS = ("ppdb-program-x64.dll", "libppdb-program-x64.so", "libppdb-program-arm64.so")
NUSPEC = """<?xml version="1.0" encoding="utf-8"?>
<package xmlns="http://schemas.microsoft.com/packaging/2013/05/nuspec.xsd">
  <metadata>
    <id>{name}</id>
    <version>{version}</version>
    <authors>{owners}</authors>
    <license type="expression">{license}</license>
    <readme>README.md</readme>
    <description>{summary}</description>
    <tags>{keywords}</tags>
    {kind}
  </metadata>
</package>
"""
OF_TOOL = '<packageTypes><packageType name="DotnetTool" /></packageTypes>'
OF_LIBRARY = '<dependencies><group targetFramework=".NETStandard2.0" /></dependencies>'
PARTS = """<?xml version="1.0" encoding="utf-8"?>
<Types xmlns="http://schemas.openxmlformats.org/package/2006/content-types">
  <Default Extension="rels" ContentType="application/vnd.openxmlformats-package.relationships+xml" />
{parts}</Types>
"""
RELATIONS = """<?xml version="1.0" encoding="utf-8"?>
<Relationships xmlns="http://schemas.openxmlformats.org/package/2006/relationships">
  <Relationship Type="http://schemas.microsoft.com/packaging/2010/07/manifest" Target="/{name}.nuspec" Id="manifest" />
</Relationships>
"""
SETTINGS = """<?xml version="1.0" encoding="utf-8"?>
<DotNetCliTool Version="1">
  <Commands>
    <Command Name="ppdb" EntryPoint="ppdb.dll" Runner="dotnet" />
  </Commands>
</DotNetCliTool>
"""
RUNTIME = {"runtimeOptions": {"tfm": "net8.0", "framework": {"name": "Microsoft.NETCore.App", "version": "8.0.0"}, "rollForward": "Major"}}
README_OF_TOOL = """# ppdb

{summary}.

    dotnet tool install --global ppdb
    ppdb verify app.pdb
    ppdb help

It runs on Windows and Linux on x86-64 and on Linux on arm64, with .NET 8 or later. `dotnet tool uninstall --global ppdb` removes it.
"""
README_OF_LIBRARY = """# PortablePdb

{summary}: the proved library over bytes, for .NET on Windows and Linux on x86-64 and on Linux on arm64.

```csharp
using System.IO;
using PortablePdb;

byte[] file = File.ReadAllBytes("app.pdb");
Fault? fault = DebugFile.Verify(file);                          // null where the file is accepted
Line[] lines = DebugFile.Lines(file, new Frame(6, 5));          // method 6 (token 06000006), offset 5
Answer shown = DebugFile.Run(new[] {{ "show", "app.pdb", "--json" }}, new Dictionary<string, byte[]> {{ ["app.pdb"] = file }});
```
"""


def packed(name: str, kind: str, readme: str, members: list[Member]) -> bytes:
    """A package: its files, and what the format of NuGet has beside them."""
    manifest = NUSPEC.format(name=name, version=version(), owners=OWNERS, license=LICENSE, summary=escape(SUMMARY), keywords=KEYWORDS, kind=kind)
    files = [Member(f"{name}.nuspec", manifest.encode()), Member("README.md", readme.format(summary=SUMMARY).encode()), *members]
    files += [source(text, text) for text in ("LICENSE", "NOTICE")]
    endings = sorted({file.name.rpartition(".")[2] for file in files if "." in file.name.rpartition("/")[2]})
    parts = [f'  <Default Extension="{ending}" ContentType="application/octet" />\n' for ending in endings]
    parts += [f'  <Override PartName="/{file.name}" ContentType="application/octet" />\n' for file in files if "." not in file.name.rpartition("/")[2]]
    top = [Member("[Content_Types].xml", PARTS.format(parts="".join(parts)).encode()), Member("_rels/.rels", RELATIONS.format(name=name).encode())]
    return zipped([*top, *files])


def made(name: str, to: str) -> Member:
    """A file of the targets under another name."""
    return Member(to, (targets() / name).read_bytes())


def tool() -> bytes:
    folder = "tools/net8.0/any"
    told = [Member(f"{folder}/DotnetToolSettings.xml", SETTINGS.encode()),
            Member(f"{folder}/ppdb.runtimeconfig.json", (json.dumps(RUNTIME, indent=2) + "\n").encode())]
    return packed(NAME, OF_TOOL, README_OF_TOOL, [*told, *(made(f"dotnet/{name}", f"{folder}/{name}") for name in ("ppdb.dll", *PROGRAMS))])


def library() -> bytes:
    native = [made("windows-x64/ppdb.dll", "runtimes/win-x64/native/ppdb-x64.dll"),
              made(f"linux-x64/libppdb.so.{version()}", "runtimes/linux-x64/native/libppdb-x64.so"),
              made(f"linux-arm64/libppdb.so.{version()}", "runtimes/linux-arm64/native/libppdb-arm64.so")]
    return packed(LIBRARY, OF_LIBRARY, README_OF_LIBRARY, [made("dotnet/PortablePdb.dll", f"lib/netstandard2.0/{LIBRARY}.dll"), *native])


def package() -> dict[str, bytes]:
    return {f"{NAME}.{version()}.nupkg": tool(), f"{LIBRARY}.{version()}.nupkg": library()}
