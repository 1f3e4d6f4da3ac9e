// MapWriter writes the map that `ppdb remap` reads after a tool has changed a module with Mono.Cecil 0.10 or later.
//
//     var map = MapWriter.Start(module);            // before the first change
//     ...                                           // change the module
//     map.Keep(module);                             // after the last change: types that only the debug file names keep their rows
//     module.Write(path, map.WriterParameters());   // the module names its debug file, which ppdb will write
//     map.Save(path, path + ".map");
//
// Copyright 2026 Jamtrov maintainers
// Licensed under the Apache License, Version 2.0: https://www.apache.org/licenses/LICENSE-2.0
// Copy this file into your tool, with these lines.
using System;
using System.Collections.Generic;
using System.IO;
using System.Linq;
using System.Text;
using Mono.Cecil;
using Mono.Cecil.Cil;

public sealed class MapWriter
{
    // What a method was before the first change.
    sealed class Body
    {
        public uint Row, Signature;
        public int Size;
        public Instruction[] Code = { };
        public int[] Offsets = { };
        public VariableDefinition[] Locals = { };
    }

    // A body before, now, and as it was written.
    sealed class Change
    {
        public Body Old;
        public MethodBody Now, Written;
        public uint Signature { get { return Written.LocalVarToken.RID; } }
    }

    // Tables of ECMA-335 II.22.
    const int Module = 0x00, TypeRef = 0x01, TypeDef = 0x02, Field = 0x04, Method = 0x06, StandAloneSig = 0x11,
        Event = 0x14, Property = 0x17, TypeSpec = 0x1b, Assembly = 0x20, AssemblyRef = 0x23, LastTable = 0x2c;

    ModuleDefinition module;
    readonly int[] rowsBefore;
    readonly Dictionary<MethodDefinition, Body> methods = new Dictionary<MethodDefinition, Body>();
    // What the old rows are, besides methods and signatures.
    readonly Dictionary<int, SortedDictionary<uint, IMetadataTokenProvider>> items =
        new Dictionary<int, SortedDictionary<uint, IMetadataTokenProvider>>();
    readonly Dictionary<object, object> replaced = new Dictionary<object, object>();
    readonly List<string> warnings = new List<string>();
    List<TypeReference> kept = new List<TypeReference>();
    MethodDefinition keeper;
    readonly SortedDictionary<string, string> renamed = new SortedDictionary<string, string>(StringComparer.Ordinal);

    /// Call it before the first change, with a module that was read from a file.
    public static MapWriter Start(ModuleDefinition module)
    {
        if (string.IsNullOrEmpty(module.FileName))
            throw new ArgumentException("MapWriter needs the file of the module: read the module from a path, not from a stream.");
        var map = new MapWriter(module);
        if (map.IsLate()) throw new InvalidOperationException(module.Name + " has changed since it was read: call Start before the first change.");
        return map;
    }

    /// What the map cannot say, a sentence each. Read them after Save.
    public IList<string> Warnings { get { return warnings; } }

    MapWriter(ModuleDefinition module)
    {
        this.module = module;
        rowsBefore = RowCounts.Of(Read(module.FileName));
        Remember(Module, new[] { module });
        if (module.Assembly != null) Remember(Assembly, new[] { module.Assembly.Name });
        Remember(AssemblyRef, module.AssemblyReferences);
        foreach (int table in new[] { TypeRef, TypeSpec }) Number(table, Types(module, table));
        foreach (var type in module.GetTypes()) Remember(type);
        if (DebugDirectory.Has(module, DebugDirectory.Embedded))
            warnings.Add("The debug file is in the module: extract it (ppdb-tools extract). The new debug file will be beside the new module.");
    }

    // A module may be open for writing.
    static byte[] Read(string file)
    {
        using (var stream = new FileStream(file, FileMode.Open, FileAccess.Read, FileShare.ReadWrite))
        using (var copy = new MemoryStream())
        {
            stream.CopyTo(copy);
            return copy.ToArray();
        }
    }

    void Remember(TypeDefinition type)
    {
        Remember(TypeDef, new[] { type });
        Remember(Field, type.Fields);
        Remember(Method, type.Methods);
        Remember(Event, type.Events);
        Remember(Property, type.Properties);
        foreach (var method in type.Methods) methods[method] = Before(method);
    }

    void Remember(int table, IEnumerable<IMetadataTokenProvider> found)
    {
        var rows = Rows(table);
        foreach (var item in found) rows[item.MetadataToken.RID] = item;
    }

    // The token of a type from TypeSpec is not that of its row.
    void Number(int table, List<TypeReference> types)
    {
        var rows = Rows(table);
        for (int i = 0; i < types.Count; i++) rows[(uint)i + 1] = types[i];
    }

    SortedDictionary<uint, IMetadataTokenProvider> Rows(int table)
    {
        if (!items.ContainsKey(table)) items[table] = new SortedDictionary<uint, IMetadataTokenProvider>();
        return items[table];
    }

    static Body Before(MethodDefinition method)
    {
        uint row = method.MetadataToken.RID;
        if (!method.HasBody) return new Body { Row = row };
        return new Body
        {
            Row = row,
            Signature = method.Body.LocalVarToken.RID,
            Size = method.Body.CodeSize,
            Code = method.Body.Instructions.ToArray(),
            Offsets = method.Body.Instructions.Select(instruction => instruction.Offset).ToArray(),
            Locals = method.Body.Variables.ToArray(),
        };
    }

    // Whether the types, the methods or their code are not those of the file.
    bool IsLate()
    {
        return Rows(TypeDef).Count != rowsBefore[TypeDef] || methods.Count != rowsBefore[Method] || methods.Values.Any(HasChanged);
    }

    static bool HasChanged(Body body)
    {
        int offset = 0;
        for (int i = 0; i < body.Code.Length; offset += body.Code[i++].GetSize())
            if (body.Offsets[i] != offset) return true;
        return offset != body.Size;
    }

    static List<TypeReference> Types(ModuleDefinition module, int table)
    {
        var found = new List<TypeReference>();
        for (uint row = 1; ; row++)
        {
            var type = module.LookupToken(new MetadataToken((TokenType)(table << 24), row)) as TypeReference;
            if (type == null) return found;
            found.Add(type);
        }
    }

    /// The code is now in another module, for example in that of a merged program. The types, methods and instructions are the same objects;
    /// the importer gives for a type or an assembly of the old module what the other one has in its place: for a type that is now defined
    /// there the definition, for an assembly that is now part of it the name of its own. Call it before Keep.
    public void Into(ModuleDefinition other, IMetadataImporter importer)
    {
        module = other;
        Remember(Module, new[] { other });
        if (Rows(Assembly).Count > 0) Remember(Assembly, new[] { other.Assembly.Name });
        foreach (int table in new[] { TypeRef, TypeDef, TypeSpec, AssemblyRef })
            foreach (var row in Rows(table).ToList())
                if (row.Value is TypeReference) Rows(table)[row.Key] = importer.ImportReference((TypeReference)row.Value, null);
                else Rows(table)[row.Key] = importer.ImportReference((AssemblyNameReference)row.Value);
    }

    /// Gives an instruction that you put in the place of another one the line of that. For code that you insert at the start of a method,
    /// `Replaced(first, inserted)` gives its first instruction the line of the method's, which then begins there.
    public void Replaced(Instruction old, Instruction now) { Replace(old, now); }

    /// Gives a local that you put in the place of another one the name of that.
    public void Replaced(VariableDefinition old, VariableDefinition now) { Replace(old, now); }

    // What is put back has its own line again.
    void Replace(object old, object now)
    {
        replaced.Remove(now);
        if (old != now) replaced[old] = now;
    }

    T Now<T>(T old)
    {
        object now;
        while (replaced.TryGetValue(old, out now)) old = (T)now;
        return old;
    }

    /// Call it after the last change. It adds a method that nothing calls and that uses each type that had a row and that the tool did not
    /// remove. Cecil writes no row for a type that only the debug file names, for example for a local `const DayOfWeek Day = ...`.
    public void Keep(ModuleDefinition module)
    {
        const string name = "<types of the debug file>";
        var all = module.Types[0].Methods;
        // That of a module woven before, and that of an earlier call.
        foreach (var earlier in all.Where(other => other == keeper || other.Name == name && methods.ContainsKey(other)).ToList()) all.Remove(earlier);
        var attributes = MethodAttributes.CompilerControlled | MethodAttributes.Static | MethodAttributes.HideBySig;
        keeper = new MethodDefinition(name, attributes, module.TypeSystem.Void);
        var code = keeper.Body.GetILProcessor();
        var types = Rows(TypeRef).Values.Concat(Rows(TypeSpec).Values).Cast<TypeReference>();
        kept = types.Where(type => !type.IsDefinition && new Nameable(module).Has(type)).ToList();
        foreach (var type in kept)
        {
            code.Emit(OpCodes.Ldtoken, type);
            code.Emit(OpCodes.Pop);
        }
        code.Emit(OpCodes.Ret);
        all.Add(keeper);
    }

    /// With these the written module names its debug file as before. The checksum, if it is to be kept, is that of the old debug file:
    /// write the new one (PatchIdentity.cs).
    public WriterParameters WriterParameters(bool keepsChecksum = false)
    {
        if (!module.HasDebugHeader) return new WriterParameters();
        return new WriterParameters { WriteSymbols = true, SymbolWriterProvider = new DebugDirectory(module.GetDebugHeader(), keepsChecksum) };
    }

    /// Gives a document of the debug file another name. Source Link finds its source by the new name.
    public void Rename(string document, string name) { renamed[document] = name; }

    /// The new value of the Source Link record of the module: JSON, or null if it stays.
    public string SourceLink { get; set; }

    /// Writes the map to the file `path`. The file `written` is the module as Cecil wrote it last.
    public void Save(string written, string path)
    {
        var bytes = Read(written);
        using (var after = ModuleDefinition.ReadModule(new MemoryStream(bytes)))
        using (var map = new StreamWriter(path) { NewLine = "\n" })
        {
            CheckWritten(after, written);
            if (!DebugDirectory.Has(after, DebugDirectory.CodeView))
                warnings.Add("The new module names no debug file, so a runtime will not look for one"
                    + (DebugDirectory.Has(module, DebugDirectory.CodeView) ? ": write it with map.WriterParameters()." : "."));
            foreach (var type in kept.Except(kept.Where(new Nameable(module).Has)))
                warnings.Add("The new module names " + type + ", which was removed after Keep: call Keep after the last change.");
            var homes = Homes();
            var changes = Changes(homes, after);
            var images = Images(after);
            images[StandAloneSig] = SignatureImages(changes);
            images[Method] = homes.ToDictionary(pair => methods[pair.Key].Row, pair => pair.Value.MetadataToken);
            map.WriteLine("ppdbmap 4");
            SaveRows(map, images, RowCounts.Of(bytes));
            foreach (var body in methods.Where(pair => !homes.ContainsKey(pair.Key)).Select(pair => pair.Value).OrderBy(body => body.Row))
                map.WriteLine("drop {0}", body.Row);
            foreach (var change in changes) SaveSlots(map, change);
            foreach (var change in changes.Where(change => !HasImage(change, images[StandAloneSig])))
                map.WriteLine("signature {0} {1}", change.Old.Row, change.Signature);
            foreach (var pair in renamed) map.WriteLine("document {0} {1}", Escaped(pair.Key), Escaped(pair.Value));
            if (SourceLink != null) map.WriteLine("link {0}", Escaped(SourceLink));
            foreach (var change in changes) SaveRuns(map, change);
        }
    }

    // A name or value as a word of a map: what is no printed character of ASCII, a space or a backslash is written as bytes of UTF-8.
    static string Escaped(string text)
    {
        if (text == "") return "\\-";
        return string.Concat(Encoding.UTF8.GetBytes(text).Select(b => b > 0x20 && b < 0x7f && b != '\\' ? ((char)b).ToString() : "\\x" + b.ToString("x2")));
    }

    // A row that became another one, or one of another table, or that is gone.
    void SaveRows(TextWriter map, Dictionary<int, IDictionary<uint, MetadataToken>> images, int[] rowsNow)
    {
        if (new[] { TypeRef, TypeDef, TypeSpec, AssemblyRef }.Any(table => IsShared(images[table].Values))) map.WriteLine("shares");
        for (int table = 0; table <= LastTable; table++)
        {
            if (rowsBefore[table] + rowsNow[table] == 0) continue;
            map.WriteLine("rows {0:x2} {1}", table, rowsNow[table]);
            if (!images.ContainsKey(table)) continue; // `remap` reports M1 if the debug file names a row of it
            foreach (var row in images[table].OrderBy(row => row.Key))
                if (row.Value.RID == 0) map.WriteLine("gone {0:x2} {1}", table, row.Key);
                else if (Table(row.Value) == table) map.WriteLine("row {0:x2} {1} {2}", table, row.Key, row.Value.RID);
                else map.WriteLine("row {0:x2} {1} {2:x2} {3}", table, row.Key, Table(row.Value), row.Value.RID);
        }
    }

    static int Table(MetadataToken token) { return (int)((uint)token.TokenType >> 24); }

    static bool IsShared(IEnumerable<MetadataToken> images)
    {
        return images.Where(image => image.RID != 0).GroupBy(image => image).Any(rows => rows.Count() > 1);
    }

    // What the module has now, besides methods.
    HashSet<object> Alive()
    {
        var found = new HashSet<object>(module.AssemblyReferences) { module };
        if (module.Assembly != null) found.Add(module.Assembly.Name);
        foreach (var type in module.GetTypes())
        {
            found.Add(type);
            found.UnionWith(type.Fields);
            found.UnionWith(type.Events);
            found.UnionWith(type.Properties);
        }
        return found;
    }

    // The method that has the code of an old method now: itself, or one that was added. A method of whose code nothing is left is not
    // here, since the debug file says nothing of new code. The entry point is, since the debug file names it.
    Dictionary<MethodDefinition, MethodDefinition> Homes()
    {
        var now = new HashSet<MethodDefinition>(module.GetTypes().SelectMany(type => type.Methods));
        var owners = new Dictionary<Instruction, MethodDefinition>();
        foreach (var method in now.Where(method => method.HasBody))
            foreach (var instruction in method.Body.Instructions) owners[instruction] = method;
        var homes = new Dictionary<MethodDefinition, MethodDefinition>();
        var taken = new HashSet<MethodDefinition>();
        foreach (var method in methods.OrderBy(pair => pair.Value.Row).Select(pair => pair.Key))
        {
            var parts = Owners(method, owners);
            var home = parts.FirstOrDefault(taken.Add);
            if (parts.Count > 1) warnings.Add("The code of " + method + " is in " + parts.Count + " methods now. Only that in " + home + " has lines.");
            bool isEmpty = home == null && methods[method].Code.Length > 0;
            if (isEmpty && now.Contains(method)) warnings.Add("Nothing is left of the code of " + method + ", so it has no lines.");
            if (home == null && now.Contains(method) && (!isEmpty || method == module.EntryPoint)) home = method;
            if (home != null) homes[method] = home;
        }
        return homes;
    }

    // The method itself and those that were added, if they have some of its code: first the one that has most.
    List<MethodDefinition> Owners(MethodDefinition method, Dictionary<Instruction, MethodDefinition> owners)
    {
        return methods[method].Code.Select(Now).Where(owners.ContainsKey).Select(instruction => owners[instruction])
            .Where(owner => owner == method || !methods.ContainsKey(owner))
            .GroupBy(owner => owner).OrderByDescending(group => group.Count()).ThenByDescending(group => group.Key == method)
            .Select(group => group.Key).ToList();
    }

    List<Change> Changes(Dictionary<MethodDefinition, MethodDefinition> homes, ModuleDefinition after)
    {
        return homes.Where(pair => pair.Value.HasBody).OrderBy(pair => methods[pair.Key].Row).Select(pair => new Change
        {
            Old = methods[pair.Key],
            Now = pair.Value.Body,
            Written = ((MethodDefinition)after.LookupToken(pair.Value.MetadataToken)).Body,
        }).ToList();
    }

    // Whether the file has the types, fields and methods of the module in their rows, and the instructions at their offsets.
    void CheckWritten(ModuleDefinition after, string written)
    {
        foreach (var type in module.GetTypes())
            foreach (var item in new IMemberDefinition[] { type }.Concat(type.Fields).Concat(type.Methods))
            {
                var there = item.MetadataToken.RID == 0 ? null : after.LookupToken(item.MetadataToken) as IMemberDefinition;
                if (there == null || Place(there) != Place(item) || !Offsets(there as MethodDefinition).SequenceEqual(Offsets(item as MethodDefinition)))
                    throw new InvalidOperationException(item + " is not in " + written + " as it is in the module: call Save right after Write.");
            }
    }

    static string Place(IMemberDefinition item) { return (item.DeclaringType == null ? "" : item.DeclaringType.Name + "/") + item.Name; }

    static IEnumerable<int> Offsets(MethodDefinition method)
    {
        return method == null || !method.HasBody ? new int[0] : method.Body.Instructions.Select(instruction => instruction.Offset);
    }

    // The new row of each old row, or 0 where what it is is not in the new module.
    Dictionary<int, IDictionary<uint, MetadataToken>> Images(ModuleDefinition after)
    {
        var alive = Alive();
        var names = Names(after);
        var nameable = new Nameable(module);
        Func<IMetadataTokenProvider, MetadataToken> now = item =>
        {
            MetadataToken row;
            if (alive.Contains(item)) return item.MetadataToken;
            var type = item as TypeReference;
            if (type == null || type.IsDefinition) return MetadataToken.Zero;
            if (!names.TryGetValue(TypeNames.Of(type), out row) && nameable.Has(type))
                warnings.Add("The new module does not name " + type + ", so the new debug file does not either. Call Keep before you write.");
            return row;
        };
        return items.ToDictionary(table => table.Key,
            table => (IDictionary<uint, MetadataToken>)table.Value.ToDictionary(row => row.Key, row => now(row.Value)));
    }

    // The first row of each type that a module refers to, by its name.
    static Dictionary<string, MetadataToken> Names(ModuleDefinition module)
    {
        var names = new Dictionary<string, MetadataToken>();
        foreach (int table in new[] { TypeSpec, TypeRef })
        {
            var types = Types(module, table);
            for (int i = types.Count - 1; i >= 0; i--) names[TypeNames.Of(types[i])] = new MetadataToken((TokenType)(table << 24), i + 1);
        }
        return names;
    }

    // Compilers give many methods one row of StandAloneSig. Its image is the row that most of them have now, unless that is already the
    // image of another row: then it is gone. The other methods get `signature` lines.
    IDictionary<uint, MetadataToken> SignatureImages(List<Change> changes)
    {
        var images = methods.Values.Select(body => body.Signature).Where(row => row != 0).Distinct().ToDictionary(row => row, row => MetadataToken.Zero);
        var taken = new HashSet<uint> { 0 };
        foreach (var old in changes.Where(change => change.Old.Signature != 0).GroupBy(change => change.Old.Signature)
            .OrderByDescending(group => group.Count()).ThenBy(group => group.Key))
        {
            var rows = old.GroupBy(change => change.Signature).OrderByDescending(group => group.Count()).ThenBy(group => group.Key);
            uint row = rows.Select(group => group.Key).FirstOrDefault(taken.Add);
            if (row != 0) images[old.Key] = new MetadataToken(TokenType.Signature, row);
        }
        return images;
    }

    // Whether the new signature of a method is the image of its old one.
    static bool HasImage(Change change, IDictionary<uint, MetadataToken> signatures)
    {
        return change.Signature == (change.Old.Signature == 0 ? 0 : signatures[change.Old.Signature].RID);
    }

    void SaveSlots(TextWriter map, Change change)
    {
        var slots = change.Old.Locals.Select(local => change.Now.Variables.IndexOf(Now(local))).ToList();
        if (slots.SequenceEqual(Enumerable.Range(0, slots.Count))) return;
        map.WriteLine("slots {0}", change.Old.Row);
        for (int slot = 0; slot < slots.Count; slot++)
            if (slots[slot] >= 0) map.WriteLine("slot {0} {1} {2}", change.Old.Row, slot, slots[slot]);
            else warnings.Add("The local in slot " + slot + " of " + change.Now.Method + " is gone. If the debug file names it, `remap` reports M10: "
                + "leave the local where it is, or call Replaced.");
    }

    // Instructions that follow each other before and now are in one run. Of one that became longer or shorter the common length is kept.
    void SaveRuns(TextWriter map, Change change)
    {
        var old = change.Old;
        var now = old.Code.Select(Now).ToList();
        var places = new Dictionary<Instruction, int>();
        for (int i = 0; i < change.Now.Instructions.Count; i++) places[change.Now.Instructions[i]] = i;
        var kept = Enumerable.Range(0, now.Count).Where(i => places.ContainsKey(now[i])).ToList();
        var inOrder = Ascending(kept.Select(i => places[now[i]]).ToList()).Select(i => kept[i]).ToList();
        int from = 0, to = 0, length = 0;
        map.WriteLine("method {0} {1} {2}", old.Row, old.Size, change.Written.CodeSize);
        foreach (int i in inOrder)
        {
            int end = i + 1 < old.Code.Length ? old.Offsets[i + 1] : old.Size;
            int size = Math.Min(end - old.Offsets[i], now[i].GetSize());
            if (old.Offsets[i] == from + length && now[i].Offset == to + length) length += size;
            else
            {
                if (length > 0) map.WriteLine("run {0} {1} {2}", from, to, length);
                from = old.Offsets[i];
                to = now[i].Offset;
                length = size;
            }
        }
        if (length > 0) map.WriteLine("run {0} {1} {2}", from, to, length);
        int lost = kept.Count - inOrder.Count;
        if (lost > 0) warnings.Add("The code of " + change.Now.Method + " has another order, so the map leaves out " + lost + " instructions.");
        lost = CountReplaced(change.Now.Instructions, places, now, inOrder);
        if (lost > 0) warnings.Add("In " + change.Now.Method + " new instructions are in the place of old ones (" + lost + "): call Replaced, or lines may be lost.");
    }

    // The longest ascending part of the numbers, as their indices.
    static IEnumerable<int> Ascending(List<int> numbers)
    {
        // The least number that ends an ascending part of each length, its index, and for each number the index of the one before it.
        var least = new List<int>();
        var ends = new List<int>();
        var before = new int[numbers.Count];
        for (int i = 0; i < numbers.Count; i++)
        {
            int length = ~least.BinarySearch(numbers[i]);
            if (length < 0) continue; // of two equal ones the first
            before[i] = length == 0 ? -1 : ends[length - 1];
            if (length == least.Count)
            {
                least.Add(0);
                ends.Add(0);
            }
            least[length] = numbers[i];
            ends[length] = i;
        }
        var found = new Stack<int>();
        for (int i = ends.Count == 0 ? -1 : ends[ends.Count - 1]; i >= 0; i = before[i]) found.Push(i);
        return found;
    }

    // How many old instructions are gone where there are new ones, between two that are kept.
    static int CountReplaced(IList<Instruction> code, Dictionary<Instruction, int> places, List<Instruction> now, List<int> kept)
    {
        var known = new HashSet<Instruction>(now);
        int found = 0, at = 0, place = 0;
        foreach (int i in kept.Concat(new[] { now.Count }))
        {
            int gone = 0, next = i < now.Count ? places[now[i]] : code.Count;
            bool hasNew = false;
            for (; at < i; at++) if (!places.ContainsKey(now[at])) gone++;
            for (; place < next; place++) hasNew |= !known.Contains(code[place]);
            if (hasNew) found += gone;
            at = i + 1;
            place = next + 1;
        }
        return kept.Count == 0 ? 0 : found;
    }
}

// The types that a module can still name: without those that a tool removed, or whose assembly reference it removed.
sealed class Nameable
{
    readonly HashSet<object> present;

    public Nameable(ModuleDefinition module)
    {
        present = new HashSet<object>(module.GetTypes()) { module };
        present.UnionWith(module.AssemblyReferences);
        present.UnionWith(module.ModuleReferences);
    }

    public bool Has(TypeReference type)
    {
        if (type is GenericParameter) return true;
        if (type is TypeDefinition) return present.Contains(type);
        if (type is TypeSpecification) return TypeNames.Parts((TypeSpecification)type).All(Has);
        return type.DeclaringType != null ? Has(type.DeclaringType) : type.Scope == null || present.Contains(type.Scope);
    }
}

// A name for each type, which is that of no other type.
static class TypeNames
{
    public static string Of(TypeReference type)
    {
        var parameter = type as GenericParameter;
        if (parameter != null) return (parameter.Type == GenericParameterType.Method ? "!!" : "!") + parameter.Position;
        var specification = type as TypeSpecification;
        if (specification is FunctionPointerType) return Suffix(specification);
        if (specification != null) return Of(specification.ElementType) + Suffix(specification);
        if (type.DeclaringType != null) return Of(type.DeclaringType) + "/" + type.Name;
        return Scope(type.Scope) + type.Namespace + "." + type.Name;
    }

    // The types that a type consists of.
    public static IEnumerable<TypeReference> Parts(TypeSpecification type)
    {
        var instance = type as GenericInstanceType;
        if (instance != null) return instance.GenericArguments.Concat(new[] { type.ElementType });
        var modifier = type as IModifierType;
        if (modifier != null) return new[] { type.ElementType, modifier.ModifierType };
        var function = type as FunctionPointerType;
        if (function != null) return function.Parameters.Select(parameter => parameter.ParameterType).Concat(new[] { function.ReturnType });
        return new[] { type.ElementType };
    }

    static string Suffix(TypeSpecification type)
    {
        var instance = type as GenericInstanceType;
        if (instance != null) return "<" + string.Join(",", instance.GenericArguments.Select(Of)) + ">";
        var array = type as ArrayType;
        if (array != null) return array.IsVector ? "[]" : "[" + array.Rank + ":" + string.Join(",", array.Dimensions) + "]";
        var modifier = type as IModifierType;
        if (modifier != null) return " " + type.GetType().Name + " " + Of(modifier.ModifierType);
        var function = type as FunctionPointerType;
        if (function != null) return "(" + function.CallingConvention + " " + function.HasThis + " "
            + string.Join(",", function.Parameters.Select(parameter => Of(parameter.ParameterType))) + ") " + Of(function.ReturnType);
        return " " + type.GetType().Name;
    }

    static string Scope(IMetadataScope scope)
    {
        var reference = scope as AssemblyNameReference;
        if (reference != null) return "[" + reference.FullName + "]";
        return scope is ModuleDefinition || scope == null ? "[]" : "[module " + scope.Name + "]";
    }
}

// Has Cecil write the debug directory of a module without a debug file.
sealed class DebugDirectory : ISymbolWriterProvider, ISymbolWriter
{
    public const int CodeView = 2, Embedded = 17, Checksum = 19;
    readonly ImageDebugHeader header;

    public DebugDirectory(ImageDebugHeader old, bool keepsChecksum)
    {
        header = new ImageDebugHeader(old.Entries.Where(entry => Kind(entry) != Embedded && (keepsChecksum || Kind(entry) != Checksum)).ToArray());
    }

    public static bool Has(ModuleDefinition module, int kind)
    {
        return module.HasDebugHeader && module.GetDebugHeader().Entries.Any(entry => Kind(entry) == kind);
    }

    static int Kind(ImageDebugHeaderEntry entry) { return (int)entry.Directory.Type; }

    public ISymbolWriter GetSymbolWriter(ModuleDefinition module, string fileName) { return this; }
    public ISymbolWriter GetSymbolWriter(ModuleDefinition module, Stream symbolStream) { return this; }
    public ISymbolReaderProvider GetReaderProvider() { return null; }
    public ImageDebugHeader GetDebugHeader() { return header; }
    public void Write(MethodDebugInformation info) { }
    public void Write(ICustomDebugInformationProvider provider) { } // this and the next are for Cecil 0.11.5 and later
    public void Write() { }
    public void Dispose() { }
}

// The numbers of rows of the tables of a module, which Cecil does not tell (ECMA-335 II.24.2.6 and II.25).
static class RowCounts
{
    public static int[] Of(byte[] bytes)
    {
        int tables = Tables(bytes, Metadata(bytes));
        ulong present = BitConverter.ToUInt64(bytes, tables + 8);
        var counts = new int[64];
        for (int table = 0, at = tables + 24; table < 64; table++)
        {
            if ((present >> table & 1) == 0) continue;
            counts[table] = BitConverter.ToInt32(bytes, at);
            at += 4;
        }
        return counts;
    }

    // The place of the metadata root: data directory 14 has the CLI header, which has its address.
    static int Metadata(byte[] bytes)
    {
        int optional = BitConverter.ToInt32(bytes, 0x3c) + 24;
        int directories = optional + (BitConverter.ToUInt16(bytes, optional) == 0x20b ? 112 : 96);
        int header = Place(bytes, BitConverter.ToInt32(bytes, directories + 14 * 8));
        return Place(bytes, BitConverter.ToInt32(bytes, header + 8));
    }

    // The place in the file of an address in memory.
    static int Place(byte[] bytes, int address)
    {
        int coff = BitConverter.ToInt32(bytes, 0x3c) + 4, sections = BitConverter.ToUInt16(bytes, coff + 2);
        for (int at = coff + 20 + BitConverter.ToUInt16(bytes, coff + 16); sections > 0; sections--, at += 40)
        {
            int start = BitConverter.ToInt32(bytes, at + 12), size = BitConverter.ToInt32(bytes, at + 16);
            if (address >= start && address < start + size) return address - start + BitConverter.ToInt32(bytes, at + 20);
        }
        throw new BadImageFormatException("no section has the address " + address);
    }

    // The place of the stream #~.
    static int Tables(byte[] bytes, int root)
    {
        int at = root + 16 + BitConverter.ToInt32(bytes, root + 12), streams = BitConverter.ToUInt16(bytes, at + 2);
        for (at += 4; streams > 0; streams--)
        {
            int name = at + 8, end = Array.IndexOf(bytes, (byte)0, name);
            if (bytes[name + 1] == '~' && end == name + 2) return root + BitConverter.ToInt32(bytes, at);
            at = name + (end - name) / 4 * 4 + 4;
        }
        throw new BadImageFormatException("no stream #~");
    }
}
