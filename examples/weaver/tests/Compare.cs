// `mono Compare.exe OLD.. NEW SHOWN` compares the debug file of the module NEW with those of the modules that were woven or merged, all as
// Cecil reads them, and with SHOWN, what `ppdb show` prints of the file of NEW. It knows what Weave.cs and Merge.cs do, and reads no map:
// new instructions are the first of a method. `mono Compare.exe OLD.. NEW SHOWN MAP..`, with a map for each OLD, also compares the names
// of the rows that the map says are the same, or gone. It prints what differs.
using System;
using System.Collections.Generic;
using System.IO;
using System.Linq;
using Mono.Cecil;
using Mono.Cecil.Cil;

static class Compare
{
    // A method that MapWriter adds.
    const string Keeper = "<types of the debug file>";
    static int failed;

    static void Fail(string text)
    {
        failed++;
        Console.WriteLine("compare: " + text);
    }

    static ModuleDefinition Read(string path)
    {
        var symbols = new ReaderParameters { ReadSymbols = true, SymbolReaderProvider = new PortablePdbReaderProvider() };
        return ModuleDefinition.ReadModule(path, symbols);
    }

    static IEnumerable<MethodDefinition> Methods(ModuleDefinition module)
    {
        return module.GetTypes().SelectMany(type => type.Methods).Where(method => method.HasBody);
    }

    static int Main(string[] words)
    {
        var modules = words.TakeWhile(word => word.EndsWith(".exe") || word.EndsWith(".dll")).Select(Read).ToList();
        var rest = words.Skip(modules.Count).ToList();
        var after = modules.Last();
        var before = modules.Take(modules.Count - 1).ToList();
        var known = before.SelectMany(Methods).Where(method => method.Name != Keeper).ToDictionary(method => method.FullName);
        var now = Methods(after).ToList();
        var merged = before.Skip(1).Select(module => module.Assembly.Name).ToList();
        foreach (var method in now)
            if (known.ContainsKey(method.FullName)) CompareMethod(known[method.FullName], method, merged);
            else if (method.DebugInformation.HasSequencePoints || method.DebugInformation.Scope != null)
                Fail(method + " is new and has points or scopes");
        foreach (var name in now.Where(method => method.Name != Keeper).GroupBy(method => method.FullName).Where(group => group.Count() > 1))
            Fail("more than one method is " + name.Key);
        CompareSignatures(now.ToDictionary(method => method.MetadataToken.RID), File.ReadLines(rest[0]));
        CompareConstants(after, File.ReadLines(rest[0]));
        for (int i = 1; i < rest.Count; i++) CompareRows(Rows(before[i - 1]), Rows(after), File.ReadLines(rest[i]), merged);
        Console.WriteLine("compare: {0} methods, {1} failed", now.Count, failed);
        return failed == 0 ? 0 : 1;
    }

    static void CompareSignatures(Dictionary<uint, MethodDefinition> methods, IEnumerable<string> shown)
    {
        foreach (var words in shown.Select(line => line.Split(' ')).Where(line => line[0] == "method"))
        {
            MethodDefinition method;
            if (!methods.TryGetValue(uint.Parse(words[1]), out method)) Fail("no method has row " + words[1]);
            else if (method.Body.LocalVarToken.RID != uint.Parse(words[3]))
                Fail(method + " has signature " + method.Body.LocalVarToken.RID + ", not " + words[3]);
        }
    }

    // The types of the enumerations that Symbols.cs adds, which Cecil does not tell: I4, the value and the type (II.23.1.16).
    static void CompareConstants(ModuleDefinition module, IEnumerable<string> shown)
    {
        var types = new Dictionary<string, string> { { "Day", "System.DayOfWeek" }, { "Green", "Shapes.Color" } };
        foreach (var words in shown.Select(line => line.Split(' ')).Where(line => line[0] == "constant" && types.ContainsKey(line[7])))
        {
            var bytes = Enumerable.Range(0, words[5].Length / 2).Select(at => Convert.ToByte(words[5].Substring(2 * at, 2), 16)).ToList();
            int coded = bytes.Count == 6 ? bytes[5] : bytes.Count == 7 ? (bytes[5] & 0x7f) << 8 | bytes[6] : 0;
            var type = module.LookupToken(new MetadataToken(coded % 4 == 0 ? TokenType.TypeDef : TokenType.TypeRef, coded / 4)) as TypeReference;
            if (type == null || type.FullName != types[words[7]]) Fail("the type of " + string.Join(" ", words) + " is " + type);
        }
    }

    // The name of each row that has one, by the words of a map.
    static Dictionary<string, string> Rows(ModuleDefinition module)
    {
        var names = new Dictionary<string, string>();
        Action<IMetadataTokenProvider> add = row =>
            names[((uint)row.MetadataToken.TokenType >> 24).ToString("x2") + " " + row.MetadataToken.RID] = row.ToString();
        names["20 1"] = module.Assembly.Name.Name;
        foreach (var reference in module.AssemblyReferences) names["23 " + reference.MetadataToken.RID] = reference.Name;
        foreach (var type in module.GetTypes())
            foreach (var row in new IMetadataTokenProvider[] { type }.Concat(type.Fields).Concat(type.Methods).Concat(type.Events).Concat(type.Properties))
                add(row);
        foreach (var table in new[] { TokenType.TypeRef, TokenType.TypeSpec })
        {
            IMetadataTokenProvider row;
            for (uint at = 1; (row = module.LookupToken(new MetadataToken(table, at))) != null; at++)
                names[((uint)table >> 24).ToString("x2") + " " + at] = row.ToString();
        }
        return names;
    }

    // An assembly that was merged has the row of the module's own, and a type of it whose name was taken has another name.
    static void CompareRows(Dictionary<string, string> before, Dictionary<string, string> after, IEnumerable<string> map,
        List<AssemblyNameDefinition> merged)
    {
        var own = merged.ToDictionary(assembly => assembly.Name, assembly => after["20 1"]);
        foreach (var words in map.Select(line => line.Split(' ')).Where(line => line[0] == "row" || line[0] == "gone"))
        {
            string old, now;
            if (!before.TryGetValue(words[1] + " " + words[2], out old)) continue;
            if (own.ContainsKey(old)) old = own[old];
            after.TryGetValue(words[words.Length == 5 ? 3 : 1] + " " + words.Last(), out now);
            foreach (var assembly in merged) if (now != null) now = now.Replace("<" + assembly.Name + ".dll>", "");
            if (words[0] == "gone" ? after.ContainsValue(old) : now != old) Fail(string.Join(" ", words) + ": " + now + ", not " + old);
        }
    }

    static void CompareMethod(MethodDefinition old, MethodDefinition now, List<AssemblyNameDefinition> merged)
    {
        int added = now.Body.Instructions.Count - old.Body.Instructions.Count;
        var offsets = new Dictionary<int, int> { { old.Body.CodeSize, now.Body.CodeSize } };
        for (int i = 0; i < old.Body.Instructions.Count; i++)
        {
            Instruction from = old.Body.Instructions[i], to = now.Body.Instructions[i + added];
            if (Short(from) != Short(to)) Fail(now + " has " + to + " in place of " + from);
            offsets[from.Offset] = to.Offset;
        }
        var locals = now.Body.Variables.Except(now.Body.Instructions.Take(added).Select(instruction => Local(now.Body, instruction))).ToList();
        Func<TypeReference, bool> isGone = type => type.IsDefinition && now.Module.GetType(type.FullName) == null;
        var expected = new Facts(old, offset => offsets[offset], slot => locals[slot].Index, isGone, merged.Select(assembly => assembly.Name)).Lines;
        var found = new Facts(now, offset => offset, slot => slot, type => false, new string[0]).Lines;
        foreach (var line in expected.Except(found)) Fail(now + " has not " + line);
        foreach (var line in found.Except(expected)) Fail(now + " has " + line);
        if (expected.Count != found.Count) Fail(now + " has " + found.Count + " facts, not " + expected.Count);
    }

    // The name of an instruction without its form.
    static string Short(Instruction instruction)
    {
        var name = instruction.OpCode.Name;
        return name.StartsWith("ldc.") ? name : name.Split('.')[0];
    }

    static VariableDefinition Local(MethodBody body, Instruction instruction)
    {
        if (instruction.Operand is VariableDefinition) return (VariableDefinition)instruction.Operand;
        var name = instruction.OpCode.Name;
        return name.StartsWith("stloc.") && char.IsDigit(name[6]) ? body.Variables[name[6] - '0'] : null;
    }
}

// What a debug file says of a method, a line for each fact, with its offsets and slots changed, without what names types that are gone,
// and with what names assemblies that were merged as it is then.
sealed class Facts
{
    public readonly List<string> Lines = new List<string>();
    readonly MethodDefinition method;
    readonly Func<int, int> offset, slot;
    readonly Func<TypeReference, bool> isGone;
    readonly HashSet<string> merged;

    public Facts(MethodDefinition method, Func<int, int> offset, Func<int, int> slot, Func<TypeReference, bool> isGone, IEnumerable<string> merged)
    {
        this.method = method;
        this.offset = offset;
        this.slot = slot;
        this.isGone = isGone;
        this.merged = new HashSet<string>(merged);
        var said = method.DebugInformation;
        foreach (var point in said.SequencePoints)
            Lines.Add("point " + offset(point.Offset) + " " + point.Document.Url + " "
                + (point.IsHidden ? "hidden" : point.StartLine + ":" + point.StartColumn + " " + point.EndLine + ":" + point.EndColumn));
        if (said.Scope != null) Scope("", said.Scope);
        if (said.StateMachineKickOffMethod != null) Lines.Add("kickoff " + said.StateMachineKickOffMethod);
        foreach (var custom in method.CustomDebugInformations) Custom(custom);
    }

    string At(InstructionOffset place) { return offset(place.IsEndOfMethod ? method.Body.CodeSize : place.Offset).ToString(); }

    void Scope(string indent, ScopeDebugInformation scope)
    {
        Lines.Add(indent + "scope " + At(scope.Start) + " " + At(scope.End));
        foreach (var local in scope.Variables)
        {
            var type = method.Body.Variables[local.Index].VariableType;
            Lines.Add(indent + "local " + slot(local.Index) + " " + type + " " + local.Attributes + " " + local.Name);
        }
        foreach (var constant in scope.Constants.Where(constant => !isGone(constant.ConstantType)))
            Lines.Add(indent + "constant " + constant.Name + " " + constant.ConstantType + " " + constant.Value);
        for (var import = scope.Import; import != null; import = import.Parent)
            foreach (var target in import.Targets.Where(target => target.Type == null || !isGone(target.Type))) Import(indent, target);
        foreach (var inner in scope.Scopes) Scope(indent + " ", inner);
    }

    void Import(string indent, ImportTarget target)
    {
        var kind = target.Kind;
        var assembly = target.AssemblyReference == null ? null : target.AssemblyReference.Name;
        if (merged.Contains(assembly))
        {
            if (kind == ImportTargetKind.DefineAssemblyAlias) return;
            kind = kind == ImportTargetKind.ImportNamespaceInAssembly ? ImportTargetKind.ImportNamespace : ImportTargetKind.DefineNamespaceAlias;
            assembly = null;
        }
        Lines.Add(indent + "import " + kind + " " + assembly + " " + target.Namespace + " " + target.Type + " " + target.Alias);
    }

    void Custom(CustomDebugInformation custom)
    {
        var text = "custom " + custom.Kind;
        var steps = custom as AsyncMethodBodyDebugInformation;
        var hoisted = custom as StateMachineScopeDebugInformation;
        var value = custom as BinaryCustomDebugInformation;
        if (steps != null)
            text += " catch " + (steps.CatchHandler.Offset < 0 ? "none" : At(steps.CatchHandler)) + " pause " + string.Join(" ", steps.Yields.Select(At))
                + " resume " + string.Join(" ", steps.Resumes.Select(At)) + " in " + string.Join(" ", steps.ResumeMethods);
        else if (hoisted != null) text += " " + string.Join(" ", hoisted.Scopes.Select(scope => At(scope.Start) + " " + At(scope.End)));
        else if (value != null) text += " " + BitConverter.ToString(value.Data);
        Lines.Add(text);
    }
}
