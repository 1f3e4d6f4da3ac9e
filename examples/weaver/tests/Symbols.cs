// mcs writes lines and locals to IN.mdb. `mono Symbols.exe IN OUT` writes the same module with a Portable PDB, in which one method also
// has what mcs does not write: constants and imports whose types only the debug file names. `mono Symbols.exe IN OUT Shapes` is for the
// library of that name and for the program that uses it: there are constants of its types, and imports of them and of assemblies.
using System;
using System.Collections.Generic;
using System.IO;
using System.Linq;
using Mono.Cecil;
using Mono.Cecil.Cil;
using Mono.CompilerServices.SymbolWriter;

static class Symbols
{
    static readonly Dictionary<string, Document> documents = new Dictionary<string, Document>();

    static int Main(string[] words)
    {
        if (words.Length < 2)
        {
            Console.Error.WriteLine("usage: mono Symbols.exe IN OUT");
            return 2;
        }
        var symbols = MonoSymbolFile.ReadSymbolFile(words[0] + ".mdb");
        using (var module = ModuleDefinition.ReadModule(words[0]))
        {
            foreach (var method in module.GetTypes().SelectMany(type => type.Methods).Where(method => method.HasBody))
            {
                var entry = symbols.GetMethodByToken(method.MetadataToken.ToInt32());
                if (entry != null) Describe(method, entry);
            }
            var described = module.EntryPoint ?? module.GetTypes().SelectMany(type => type.Methods).First(method => method.DebugInformation.Scope != null);
            var scope = described.DebugInformation.Scope;
            scope.Import = new ImportDebugInformation();
            var day = Enumeration(scope, "Day", new TypeReference("System", "DayOfWeek", module, module.TypeSystem.CoreLibrary, true), 5);
            Null(scope, "Culture", new TypeReference("System.Globalization", "CultureInfo", module, module.TypeSystem.CoreLibrary));
            var unused = module.GetType("Unused");
            if (unused != null) Null(scope, "Unneeded", unused);
            if (unused != null) Alias(scope, "Old", unused);
            var green = words.Length > 2 ? AddTypes(module, words[2], scope) : day;
            module.Write(words[1], new WriterParameters { WriteSymbols = true, SymbolWriterProvider = new PortablePdbWriterProvider() });
            foreach (var constant in new[] { day, green }.Distinct()) SetValue(words[1], constant);
        }
        return 0;
    }

    static ConstantDebugInformation Enumeration(ScopeDebugInformation scope, string name, TypeReference type, int value)
    {
        var constant = new ConstantDebugInformation(name, type, value);
        scope.Constants.Add(constant);
        return constant;
    }

    static void Null(ScopeDebugInformation scope, string name, TypeReference type)
    {
        scope.Constants.Add(new ConstantDebugInformation(name, type, null));
    }

    static void Alias(ScopeDebugInformation scope, string name, TypeReference type)
    {
        scope.Import.Targets.Add(new ImportTarget(ImportTargetKind.DefineTypeAlias) { Alias = name, Type = type });
    }

    // Cecil writes of a constant of an enumeration the type and four zeros (VALUETYPE, II.23.1.16); it is to be I4, the value, the type.
    static void SetValue(string path, ConstantDebugInformation constant)
    {
        var file = Path.ChangeExtension(path, "pdb");
        var bytes = File.ReadAllBytes(file);
        MetadataToken type;
        using (var written = ModuleDefinition.ReadModule(path))
            type = written.GetTypes().Concat(written.GetTypeReferences()).First(known => known.FullName == constant.ConstantType.FullName).MetadataToken;
        uint coded = type.RID << 2 | (type.TokenType == TokenType.TypeRef ? 1u : 0);
        var token = coded < 0x80 ? new[] { (byte)coded } : new[] { (byte)(0x80 | coded >> 8), (byte)coded };
        var old = new byte[] { (byte)(token.Length + 5), 0x11 }.Concat(token).Concat(new byte[4]).ToArray();
        int at = Enumerable.Range(0, bytes.Length - old.Length).Single(place => bytes.Skip(place).Take(old.Length).SequenceEqual(old));
        new byte[] { 0x08 }.Concat(BitConverter.GetBytes((int)constant.Value)).Concat(token).ToArray().CopyTo(bytes, at + 1);
        File.WriteAllBytes(file, bytes);
    }

    // What a compiler writes for `const` locals, and for `using` and `extern alias`, of a library and of mscorlib.
    static ConstantDebugInformation AddTypes(ModuleDefinition module, string library, ScopeDebugInformation scope)
    {
        var reference = module.AssemblyReferences.FirstOrDefault(known => known.Name == library);
        var core = (AssemblyNameReference)module.TypeSystem.CoreLibrary;
        Func<string, bool, TypeReference> find = (name, isValue) =>
            module.GetType(library, name) ?? new TypeReference(library, name, module, reference, isValue);
        Null(scope, "None", find("Square", false));
        var pair = new GenericInstanceType(find("Pair`1", true));
        pair.GenericArguments.Add(new TypeReference("System", "DayOfWeek", module, core, true));
        Alias(scope, "Days", pair);
        Alias(scope, "Form", find("Shape", false));
        var imports = scope.Import.Targets;
        imports.Add(new ImportTarget(ImportTargetKind.ImportType) { Type = find("Tools", false) });
        // The library also refers to an older mscorlib, and the program does not.
        if (reference == null) module.AssemblyReferences.Add(reference = new AssemblyNameReference(core.Name, new Version(2, 0, 0, 0)));
        foreach (var assembly in new[] { reference, core })
        {
            imports.Add(new ImportTarget(ImportTargetKind.ImportNamespaceInAssembly) { AssemblyReference = assembly, Namespace = "In" });
            imports.Add(new ImportTarget(ImportTargetKind.DefineAssemblyAlias) { AssemblyReference = assembly, Alias = "all" });
            imports.Add(new ImportTarget(ImportTargetKind.DefineNamespaceInAssemblyAlias)
                { AssemblyReference = assembly, Alias = "some", Namespace = "In" });
        }
        return Enumeration(scope, "Green", find("Color", true), 512);
    }

    static void Describe(MethodDefinition method, MethodEntry entry)
    {
        var body = method.Body;
        foreach (var line in entry.GetLineNumberTable().LineNumbers)
        {
            var at = body.Instructions.FirstOrDefault(instruction => instruction.Offset == line.Offset);
            var points = method.DebugInformation.SequencePoints;
            if (at == null || points.Any(point => point.Offset == line.Offset)) continue;
            points.Add(new SequencePoint(at, Document(entry.CompileUnit.SourceFile.FileName)) {
                StartLine = line.IsHidden ? 0xfeefee : line.Row, EndLine = line.IsHidden ? 0xfeefee : line.Row,
                StartColumn = line.IsHidden ? 0 : 1, EndColumn = line.IsHidden ? 0 : 2,
            });
        }
        var scope = method.DebugInformation.Scope = new ScopeDebugInformation(body.Instructions[0], null);
        var scopes = entry.GetCodeBlocks()
            .Select(block => new ScopeDebugInformation(At(body, block.StartOffset), At(body, block.EndOffset))).ToList();
        foreach (var local in entry.GetLocals())
        {
            var owner = local.BlockIndex < 1 ? scope : scopes[local.BlockIndex - 1];
            if (owner != scope && owner.Variables.Count == 0) scope.Scopes.Add(owner);
            owner.Variables.Add(new VariableDebugInformation(body.Variables[local.Index], local.Name));
        }
    }

    static Instruction At(MethodBody body, int offset)
    {
        return body.Instructions.FirstOrDefault(instruction => instruction.Offset >= offset);
    }

    static Document Document(string url)
    {
        if (!documents.ContainsKey(url)) documents[url] = new Document(url) { Language = DocumentLanguage.CSharp, Type = DocumentType.Text };
        return documents[url];
    }
}
