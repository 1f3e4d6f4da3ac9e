// `mono Cases.exe NAME IN OUT` writes the module OUT, its map OUT.map and the warnings about it, OUT.warnings. Weave.cs does not do what
// these do.
using System;
using System.Collections.Generic;
using System.IO;
using System.Linq;
using Mono.Cecil;
using Mono.Cecil.Cil;

static class Cases
{
    static void Main(string[] words)
    {
        using (var module = Read(words[1], words[0] == "stream"))
        {
            var chooser = Find(module, "Choose");
            var choose = chooser.Body.Instructions;
            if (words[0] == "late") choose.Insert(0, Instruction.Create(OpCodes.Nop));
            var map = MapWriter.Start(module);
            if (words[0] == "marked") Mark(chooser);
            if (words[0] == "unmarked" && module.Types.Remove(module.GetType("Unused"))) Unmark(chooser);
            if (words[0] == "moved")
                foreach (var method in module.GetType("Work").Methods.Where(method => char.IsLetter(method.Name[0])).ToList()) MoveOut(method);
            if (words[0] == "split") Split(chooser);
            if (words[0] == "guarded" || words[0] == "unwritten") Guard(chooser.Body, words[0] == "guarded" ? map : null);
            if (words[0] == "exchanged" || words[0] == "told") Exchange(Find(module, "Try").Body, words[0] == "told" ? map : null);
            if (words[0] == "told") ExchangeLocals(Find(module, "Rethrow").Body, map);
            if (words[0] == "shortened") Find(module, "Rethrow").Body.Variables.RemoveAt(0); // the program is not run
            if (words[0] != "lost" && words[0] != "unwritten") map.Keep(module);
            if (words[0] == "unwritten" && File.Exists(words[2])) map.Save(words[2], words[2] + ".map");
            if (words[0] == "early") Unmark(chooser);
            if (words[0] == "replaced") Replace(choose);
            if (words[0] == "back") MoveBack(choose);
            if (words[0] == "copied")
                foreach (var method in module.GetTypes().SelectMany(type => type.Methods).Where(method => method.HasBody)) Copy(method.Body, map);
            var parameters = map.WriterParameters();
            if (words[0] == "checked") parameters = map.WriterParameters(true);
            if (words[0] == "unnamed") parameters = new WriterParameters();
            if (words[0] == "checksum") parameters.SymbolWriterProvider = new WithChecksum(module.GetDebugHeader());
            module.Write(words[2], parameters);
            map.Save(words[2], words[2] + ".map");
            File.WriteAllLines(words[2] + ".warnings", map.Warnings);
        }
    }

    static ModuleDefinition Read(string path, bool isStream)
    {
        return isStream ? ModuleDefinition.ReadModule(new MemoryStream(File.ReadAllBytes(path))) : ModuleDefinition.ReadModule(path);
    }

    static MethodDefinition Find(ModuleDefinition module, string name)
    {
        return module.GetType("Work").Methods.First(method => method.Name == name);
    }

    static void Replace(IList<Instruction> code)
    {
        code.Clear();
        code.Add(Instruction.Create(OpCodes.Ldnull));
        code.Add(Instruction.Create(OpCodes.Throw));
    }

    // Gives the method an attribute of another assembly, and code with types that only TypeSpec has.
    static void Mark(MethodDefinition method)
    {
        var module = method.Module;
        var marks = new AssemblyNameReference("Marks", new Version(1, 0));
        module.AssemblyReferences.Add(marks);
        var mark = new TypeReference("Marks", "MarkAttribute", module, marks);
        method.CustomAttributes.Add(new CustomAttribute(new MethodReference(".ctor", module.TypeSystem.Void, mark) { HasThis = true }));
        var pointer = new FunctionPointerType { ReturnType = module.TypeSystem.Int32 };
        pointer.Parameters.Add(new ParameterDefinition(mark));
        foreach (var type in new TypeReference[] { new ArrayType(module.GetType("Unused")), new ArrayType(mark), pointer })
        {
            method.Body.Instructions.Insert(0, Instruction.Create(OpCodes.Pop));
            method.Body.Instructions.Insert(0, Instruction.Create(OpCodes.Ldtoken, type));
        }
    }

    // Removes all of this again, the assembly reference too.
    static void Unmark(MethodDefinition method)
    {
        var references = method.Module.AssemblyReferences;
        references.Remove(references.First(reference => reference.Name == "Marks"));
        method.CustomAttributes.Clear();
        for (int count = 0; count < 6; count++) method.Body.Instructions.RemoveAt(0);
    }

    // The code becomes that of a new method, which the old one calls.
    static void MoveOut(MethodDefinition method)
    {
        var moved = new MethodDefinition(method.Name + "Moved", method.Attributes, method.ReturnType);
        foreach (var parameter in method.Parameters) moved.Parameters.Add(new ParameterDefinition(parameter.Name, 0, parameter.ParameterType));
        foreach (var local in method.Body.Variables) moved.Body.Variables.Add(local);
        foreach (var instruction in method.Body.Instructions) moved.Body.Instructions.Add(instruction);
        foreach (var handler in method.Body.ExceptionHandlers) moved.Body.ExceptionHandlers.Add(handler);
        moved.Body.InitLocals = true;
        method.DeclaringType.Methods.Insert(0, moved);
        method.Body = new MethodBody(method);
        var code = method.Body.GetILProcessor();
        foreach (var parameter in method.Parameters) code.Emit(OpCodes.Ldarg, parameter);
        code.Emit(OpCodes.Call, moved);
        code.Emit(OpCodes.Ret);
    }

    // The first instruction becomes that of a new method.
    static void Split(MethodDefinition method)
    {
        var part = new MethodDefinition("Part", method.Attributes, method.Module.TypeSystem.Void);
        part.Body.Instructions.Add(method.Body.Instructions[0]);
        part.Body.Instructions.Add(Instruction.Create(OpCodes.Ret));
        method.Body.Instructions.RemoveAt(0);
        method.DeclaringType.Methods.Add(part);
    }

    // Each instruction becomes a copy.
    static void Copy(MethodBody body, MapWriter map)
    {
        var copies = body.Instructions.ToDictionary(old => old, old => Instruction.Create(OpCodes.Nop));
        Func<Instruction, Instruction> copy = old => old == null ? null : copies[old];
        foreach (var old in body.Instructions)
        {
            copies[old].OpCode = old.OpCode;
            var targets = old.Operand as Instruction[];
            if (targets != null) copies[old].Operand = targets.Select(copy).ToArray();
            else copies[old].Operand = old.Operand is Instruction ? copy((Instruction)old.Operand) : old.Operand;
            map.Replaced(old, copies[old]);
        }
        foreach (var handler in body.ExceptionHandlers)
        {
            handler.TryStart = copy(handler.TryStart);
            handler.TryEnd = copy(handler.TryEnd);
            handler.HandlerStart = copy(handler.HandlerStart);
            handler.HandlerEnd = copy(handler.HandlerEnd);
            handler.FilterStart = copy(handler.FilterStart);
        }
        var code = body.Instructions.Select(copy).ToList();
        body.Instructions.Clear();
        foreach (var instruction in code) body.Instructions.Add(instruction);
    }

    // New code at the start, with the line of the code that was there.
    static void Guard(MethodBody body, MapWriter map)
    {
        var first = body.Instructions[0];
        body.Instructions.Insert(0, Instruction.Create(OpCodes.Nop));
        body.Instructions.Insert(0, Instruction.Create(OpCodes.Nop));
        if (map != null) map.Replaced(first, body.Instructions[0]);
    }

    // The last instruction becomes another one.
    static void Exchange(MethodBody body, MapWriter map)
    {
        var last = body.Instructions[body.Instructions.Count - 1];
        var now = Instruction.Create(OpCodes.Ret);
        body.Instructions[body.Instructions.Count - 1] = now;
        foreach (var instruction in body.Instructions.Where(instruction => instruction.Operand == last)) instruction.Operand = now;
        foreach (var handler in body.ExceptionHandlers.Where(handler => handler.HandlerEnd == last)) handler.HandlerEnd = now;
        if (map != null) map.Replaced(last, now);
    }

    // The locals become others.
    static void ExchangeLocals(MethodBody body, MapWriter map)
    {
        foreach (var old in body.Variables.ToList())
        {
            var now = new VariableDefinition(old.VariableType);
            body.Variables[old.Index] = now;
            foreach (var instruction in body.Instructions.Where(instruction => instruction.Operand == old)) instruction.Operand = now;
            map.Replaced(old, now);
        }
    }

    // The first instruction becomes the last.
    static void MoveBack(IList<Instruction> code)
    {
        var first = code[0];
        code.RemoveAt(0);
        code.Add(first);
    }
}

// A debug directory with a checksum of zeros.
sealed class WithChecksum : ISymbolWriterProvider, ISymbolWriter
{
    readonly ImageDebugHeader header;

    public WithChecksum(ImageDebugHeader old)
    {
        var data = System.Text.Encoding.ASCII.GetBytes("SHA256\0").Concat(new byte[32]).ToArray();
        var directory = new ImageDebugDirectory { Type = (ImageDebugType)19, MajorVersion = 1, SizeOfData = data.Length };
        header = new ImageDebugHeader(old.Entries.Concat(new[] { new ImageDebugHeaderEntry(directory, data) }).ToArray());
    }

    public ISymbolWriter GetSymbolWriter(ModuleDefinition module, string fileName) { return this; }
    public ISymbolWriter GetSymbolWriter(ModuleDefinition module, Stream symbolStream) { return this; }
    public ISymbolReaderProvider GetReaderProvider() { return null; }
    public ImageDebugHeader GetDebugHeader() { return header; }
    public void Write(MethodDebugInformation info) { }
    public void Dispose() { }
}
