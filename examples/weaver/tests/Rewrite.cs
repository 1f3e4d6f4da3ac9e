// What weavers, trimmers, optimisers and obfuscators do, so that other writers of maps can be compared with MapWriter, which knows the
// objects. `mono Rewrite.exe FOLDER WAYS IN..` rewrites each module in each of the ways, `all` or names with commas between them:
// FOLDER/WAY-IN has the new module in the file `new`, its map in `map`, and in `map.changed` the old instructions, each by the row of its
// method and its offset, that are another instruction now (another opcode or operand); `offsets` has all old instructions, and `old` names
// these files for scripts/checks/compare-maps.
using System;
using System.Collections.Generic;
using System.IO;
using System.Linq;
using System.Runtime.CompilerServices;
using Mono.Cecil;
using Mono.Cecil.Cil;

static class Rewrite
{
    static readonly Dictionary<string, Action<ModuleDefinition>> ways = new Dictionary<string, Action<ModuleDefinition>>
    {
        { "same", module => { } },
        { "log-entry", module => EachBody(module, body => Before(body, body.Instructions[0], Say(body))) },
        { "log-entry-this", module => EachBody(module, body => Before(body, body.Instructions[0], SayThis(body))) },
        { "log-return", module => EachBody(module, body => BeforeEach(body, OpCodes.Ret, () => Say(body))) },
        { "log-return-targets", module => EachBody(module, body => BeforeEach(body, OpCodes.Ret, () => Say(body), true)) },
        { "log-calls", module => EachBody(module, body => AfterEach(body, IsVoidCall, () => Say(body))) },
        { "local-first", module => EachBody(module, body => AddLocal(body, 0)) },
        { "local-last", module => EachBody(module, body => AddLocal(body, body.Variables.Count)) },
        { "local-removed", module => EachBody(module, RemoveLocals) },
        { "long-forms", module => EachBody(module, Lengthen) },
        { "short-forms", module => EachBody(module, body => { Lengthen(body); Shorten(body); }) },
        { "nops-removed", module => EachBody(module, RemoveNops) },
        { "calls-removed", module => EachBody(module, RemoveSimpleCalls) },
        { "checks", module => EachBody(module, body => AfterEach(body, i => i.OpCode == OpCodes.Newobj && !IsValueType(i), () => Check(body))) },
        { "argument-guard", module => EachBody(module, Guard) },
        { "finally", module => EachBody(module, WrapInFinally) },
        { "finally-kept-return", module => EachBody(module, WrapKeepingReturn) },
        { "calls-replaced", module => EachBody(module, ReplaceCalls) },
        { "constants", module => EachBody(module, ChangeConstants) },
        { "cold-last", module => EachBody(module, MoveThrows) },
        { "moved-out", MoveOut },
        { "methods-removed", RemoveMethods },
        { "types-removed", RemoveTypes },
        { "types-added", AddTypes },
        { "types-reversed", ReverseTypes },
        { "methods-moved", MoveMethods },
        { "nested-to-top", UnnestTypes },
        { "namespace", module => { foreach (var type in module.Types.Skip(1)) type.Namespace = "Renamed." + type.Namespace; } },
        { "types-renamed", module => { int n = 0; foreach (var type in module.GetTypes().Skip(1).ToList()) type.Name = "T" + n++ + Arity(type); } },
        { "methods-renamed", module => RenameMethods(module) },
        { "all-renamed", RenameAll },
    };

    static readonly HashSet<Instruction> changed = new HashSet<Instruction>();
    static MethodReference say, sayThis;

    static void Main(string[] words)
    {
        var wanted = words[1] == "all" ? ways.Keys.ToArray() : words[1].Split(',');
        foreach (var file in words.Skip(2))
            foreach (var way in wanted)
            {
                var folder = Path.Combine(words[0], way + "-" + Path.GetFileNameWithoutExtension(file));
                Directory.CreateDirectory(folder);
                Write(file, folder, ways[way]);
            }
    }

    static void Write(string file, string folder, Action<ModuleDefinition> change)
    {
        string now = Path.Combine(folder, "new"), offsets = Path.Combine(folder, "offsets"), written = Path.Combine(folder, "map");
        changed.Clear();
        using (var module = ModuleDefinition.ReadModule(file))
        {
            var map = MapWriter.Start(module);
            var places = Methods(module).SelectMany(method => method.Body.Instructions.Select(i => new { i, method.MetadataToken.RID, i.Offset })).ToList();
            var before = places.ToDictionary(place => place.i, place => Meaning(place.i));
            File.WriteAllLines(offsets, places.Select(place => place.RID + " " + place.Offset));
            AddSayers(module);
            change(module);
            foreach (var place in places) if (before[place.i] != Meaning(place.i)) changed.Add(place.i);
            File.WriteAllLines(written + ".changed", places.Where(place => changed.Contains(place.i)).Select(place => place.RID + " " + place.Offset));
            map.Keep(module);
            module.Write(now, map.WriterParameters());
            map.Save(now, written);
        }
        File.WriteAllText(Path.Combine(folder, "old"), file + " " + offsets + " " + written + "\n");
    }

    // What an instruction does, whatever its form: the same text before and after if nothing but names and the form changed.
    static string Meaning(Instruction instruction)
    {
        var name = instruction.OpCode.Name;
        var operand = instruction.Operand;
        if (name.EndsWith(".s")) name = name.Substring(0, name.Length - 2);
        if (name.StartsWith("ldc.i4")) return "ldc.i4 " + Number(instruction);
        if (name.StartsWith("ldloc.") || name.StartsWith("stloc.") || name.StartsWith("ldarg.")) return name.Split('.')[0];
        if (operand is VariableDefinition || operand is ParameterDefinition) return name;
        if (operand is Instruction) return name;
        return name + " " + (operand is MemberReference ? "#" + RuntimeHelpers.GetHashCode(operand) : operand == null ? "" : operand.ToString());
    }

    static int Number(Instruction instruction)
    {
        if (instruction.Operand != null) return Convert.ToInt32(instruction.Operand);
        return instruction.OpCode == OpCodes.Ldc_I4_M1 ? -1 : instruction.OpCode.Code - Code.Ldc_I4_0;
    }

    static IEnumerable<MethodDefinition> Methods(ModuleDefinition module)
    {
        return module.GetTypes().SelectMany(type => type.Methods).Where(method => method.HasBody);
    }

    static void EachBody(ModuleDefinition module, Action<MethodBody> change)
    {
        foreach (var method in Methods(module).Where(method => method != say && method != sayThis).ToList())
        {
            Lengthen(method.Body);
            change(method.Body);
        }
    }

    // The methods that new code calls, in a type of their own.
    static void AddSayers(ModuleDefinition module)
    {
        var type = new TypeDefinition("", "<Sayer>", TypeAttributes.Class | TypeAttributes.Sealed | TypeAttributes.Abstract, module.TypeSystem.Object);
        say = AddSayer(type, "Say", module.TypeSystem.String);
        sayThis = AddSayer(type, "SayThis", module.TypeSystem.Object);
        module.Types.Insert(1, type);
    }

    static MethodReference AddSayer(TypeDefinition type, string name, TypeReference parameter)
    {
        var sayer = new MethodDefinition(name, MethodAttributes.Static | MethodAttributes.Assembly, type.BaseType.Module.TypeSystem.Void);
        sayer.Parameters.Add(new ParameterDefinition(parameter));
        sayer.Body.GetILProcessor().Emit(OpCodes.Ret);
        type.Methods.Add(sayer);
        return sayer;
    }

    static Instruction[] Say(MethodBody body)
    {
        return new[] { Instruction.Create(OpCodes.Ldstr, "in " + body.Method.Name), Instruction.Create(OpCodes.Call, say) };
    }

    static Instruction[] SayThis(MethodBody body)
    {
        if (!body.Method.HasThis || body.Method.DeclaringType.IsValueType || body.Method.IsConstructor) return Say(body);
        return new[] { Instruction.Create(OpCodes.Ldarg_0), Instruction.Create(OpCodes.Call, sayThis) };
    }

    static Instruction[] Check(MethodBody body) { return new[] { Instruction.Create(OpCodes.Dup), Instruction.Create(OpCodes.Call, sayThis) }; }

    static bool IsValueType(Instruction created) { return ((MethodReference)created.Operand).DeclaringType.IsValueType; }

    static bool IsVoidCall(Instruction instruction)
    {
        return instruction.OpCode.FlowControl == FlowControl.Call && instruction.OpCode != OpCodes.Newobj && instruction.Operand is MethodReference
            && ((MethodReference)instruction.Operand).ReturnType.FullName == "System.Void";
    }

    static void Before(MethodBody body, Instruction at, params Instruction[] code)
    {
        int place = body.Instructions.IndexOf(at);
        foreach (var instruction in code) body.Instructions.Insert(place++, instruction);
    }

    static void BeforeEach(MethodBody body, OpCode opcode, Func<Instruction[]> code, bool redirects = false)
    {
        foreach (var at in body.Instructions.Where(i => i.OpCode == opcode).ToList())
        {
            var added = code();
            Before(body, at, added);
            if (redirects) Redirect(body, at, added[0]);
        }
    }

    static void AfterEach(MethodBody body, Func<Instruction, bool> where, Func<Instruction[]> code)
    {
        foreach (var at in body.Instructions.Where(where).ToList())
        {
            int place = body.Instructions.IndexOf(at);
            foreach (var instruction in code()) body.Instructions.Insert(++place, instruction);
        }
    }

    // Branches, and the bounds of clauses, lead to another instruction.
    static void Redirect(MethodBody body, Instruction from, Instruction to)
    {
        foreach (var instruction in body.Instructions)
        {
            if (instruction.Operand == from) instruction.Operand = to;
            var targets = instruction.Operand as Instruction[];
            if (targets != null) for (int i = 0; i < targets.Length; i++) if (targets[i] == from) targets[i] = to;
        }
        foreach (var handler in body.ExceptionHandlers)
        {
            if (handler.TryStart == from) handler.TryStart = to;
            if (handler.TryEnd == from) handler.TryEnd = to;
            if (handler.HandlerStart == from) handler.HandlerStart = to;
            if (handler.HandlerEnd == from) handler.HandlerEnd = to;
            if (handler.FilterStart == from) handler.FilterStart = to;
        }
    }

    static bool IsTarget(MethodBody body, Instruction at)
    {
        return body.Instructions.Any(i => i.Operand == at || i.Operand is Instruction[] && ((Instruction[])i.Operand).Contains(at))
            || body.ExceptionHandlers.Any(h => new[] { h.TryStart, h.TryEnd, h.HandlerStart, h.HandlerEnd, h.FilterStart }.Contains(at));
    }

    static void AddLocal(MethodBody body, int slot)
    {
        var local = new VariableDefinition(body.Method.Module.TypeSystem.String);
        body.Variables.Insert(slot, local);
        Before(body, body.Instructions[0], Instruction.Create(OpCodes.Ldstr, "entered"), Instruction.Create(OpCodes.Stloc, local));
    }

    // `stloc x; ldloc x` of a local that nothing else uses.
    static void RemoveLocals(MethodBody body)
    {
        foreach (var local in body.Variables.ToList())
        {
            var uses = body.Instructions.Where(i => i.Operand == local).ToList();
            if (uses.Count != 2 || uses[0].OpCode != OpCodes.Stloc || uses[1].OpCode != OpCodes.Ldloc || uses[0].Next != uses[1]) continue;
            if (uses.Any(use => IsTarget(body, use))) continue;
            foreach (var use in uses) body.Instructions.Remove(use);
            body.Variables.Remove(local);
        }
    }

    static readonly Dictionary<string, OpCode> all = typeof(OpCodes).GetFields().ToDictionary(field => field.Name, field => (OpCode)field.GetValue(null));

    // Each instruction gets the form that names its local, its argument or its number, and reaches each offset.
    static void Lengthen(MethodBody body)
    {
        foreach (var instruction in body.Instructions)
        {
            var name = instruction.OpCode.Code.ToString();
            if (name.StartsWith("Ldloc_") || name.StartsWith("Stloc_") || name.StartsWith("Ldloca_"))
            {
                if (instruction.Operand == null) instruction.Operand = body.Variables[name[6] - '0'];
                instruction.OpCode = all[name.Substring(0, name.IndexOf('_'))];
            }
            else if (instruction.OpCode.OperandType == OperandType.ShortInlineBrTarget) instruction.OpCode = all[name.Substring(0, name.Length - 2)];
            else if (name.StartsWith("Ldc_I4_"))
            {
                instruction.Operand = Number(instruction);
                instruction.OpCode = OpCodes.Ldc_I4;
            }
        }
    }

    static void Shorten(MethodBody body)
    {
        foreach (var instruction in body.Instructions)
        {
            var local = instruction.Operand as VariableDefinition;
            var name = instruction.OpCode.Code.ToString();
            if (local != null && local.Index < 4 && name != "Ldloca")
            {
                instruction.OpCode = all[name + "_" + local.Index];
                instruction.Operand = null;
            }
            else if (local != null && local.Index < 256) instruction.OpCode = all[name + "_S"];
            else if (name == "Ldc_I4" && (int)instruction.Operand >= 0 && (int)instruction.Operand <= 8)
            {
                instruction.OpCode = all["Ldc_I4_" + instruction.Operand];
                instruction.Operand = null;
            }
        }
    }

    static void RemoveNops(MethodBody body)
    {
        foreach (var nop in body.Instructions.Where(i => i.OpCode == OpCodes.Nop && i.Next != null).ToList())
        {
            Redirect(body, nop, nop.Next);
            body.Instructions.Remove(nop);
        }
    }

    // `ldstr; call` of a method without a value.
    static void RemoveSimpleCalls(MethodBody body)
    {
        foreach (var call in body.Instructions.Where(IsVoidCall).ToList())
        {
            var text = call.Previous;
            if (((MethodReference)call.Operand).Parameters.Count != 1 || ((MethodReference)call.Operand).HasThis || text == null
                || text.OpCode != OpCodes.Ldstr || call.Next == null || IsTarget(body, call)) continue;
            Redirect(body, text, call.Next);
            body.Instructions.Remove(text);
            body.Instructions.Remove(call);
        }
    }

    // if (argument == null) throw new Exception("argument");
    static void Guard(MethodBody body)
    {
        var module = body.Method.Module;
        Func<TypeReference, bool> isClass = type => !type.IsValueType && !type.IsByReference && !type.IsGenericParameter && !(type is TypeSpecification);
        foreach (var parameter in body.Method.Parameters.Where(parameter => isClass(parameter.ParameterType)))
        {
            var first = body.Instructions[0];
            var exception = module.ImportReference(typeof(Exception).GetConstructor(new[] { typeof(string) }));
            Before(body, first, Instruction.Create(OpCodes.Ldarg, parameter), Instruction.Create(OpCodes.Brtrue, first),
                Instruction.Create(OpCodes.Ldstr, "null"), Instruction.Create(OpCodes.Newobj, exception), Instruction.Create(OpCodes.Throw));
        }
    }

    // Each `ret` becomes `leave`, the same object; a value goes to a new local.
    static void WrapInFinally(MethodBody body)
    {
        if (body.Method.IsConstructor || body.Instructions.Any(i => i.OpCode == OpCodes.Jmp || i.OpCode == OpCodes.Tail)) return;
        var result = body.Method.ReturnType.FullName == "System.Void" ? null : new VariableDefinition(body.Method.ReturnType);
        if (result != null) body.Variables.Add(result);
        var first = body.Instructions[0];
        var end = Instruction.Create(OpCodes.Ret);
        var after = result == null ? end : Instruction.Create(OpCodes.Ldloc, result);
        foreach (var exit in body.Instructions.Where(i => i.OpCode == OpCodes.Ret).ToList())
        {
            if (result == null)
            {
                exit.OpCode = OpCodes.Leave;
                exit.Operand = after;
                continue;
            }
            exit.OpCode = OpCodes.Stloc;
            exit.Operand = result;
            body.Instructions.Insert(body.Instructions.IndexOf(exit) + 1, Instruction.Create(OpCodes.Leave, after));
        }
        AddFinally(body, first, after);
        if (result != null) body.Instructions.Add(after);
        body.Instructions.Add(end);
    }

    // The last `ret`, with the load of its value, stays behind the new block; the others lead to it.
    static void WrapKeepingReturn(MethodBody body)
    {
        var end = body.Instructions[body.Instructions.Count - 1];
        if (body.Method.IsConstructor || end.OpCode != OpCodes.Ret || body.Instructions.Count(i => i.OpCode == OpCodes.Ret) > 1
            || body.Instructions.Any(i => i.OpCode == OpCodes.Tail)) return;
        var kept = body.Method.ReturnType.FullName == "System.Void" ? end : end.Previous;
        if (kept != end && kept.OpCode != OpCodes.Ldloc || kept == body.Instructions[0] || body.ExceptionHandlers.Any(h => h.HandlerEnd == null)) return;
        foreach (var handler in body.ExceptionHandlers) if (handler.HandlerEnd == kept || handler.HandlerEnd == end) return;
        var tail = new List<Instruction> { kept };
        if (kept != end) tail.Add(end);
        foreach (var instruction in tail) body.Instructions.Remove(instruction);
        var leave = Instruction.Create(OpCodes.Leave, kept);
        body.Instructions.Add(leave);
        foreach (var instruction in tail) Redirect(body, instruction, leave);
        leave.Operand = kept;
        AddFinally(body, body.Instructions[0], kept);
        foreach (var instruction in tail) body.Instructions.Add(instruction);
    }

    static void AddFinally(MethodBody body, Instruction first, Instruction after)
    {
        var start = Instruction.Create(OpCodes.Ldstr, "out");
        var code = new[] { start, Instruction.Create(OpCodes.Call, say), Instruction.Create(OpCodes.Endfinally) };
        foreach (var instruction in code) body.Instructions.Add(instruction);
        var handler = new ExceptionHandler(ExceptionHandlerType.Finally) { TryStart = first, TryEnd = start, HandlerStart = start, HandlerEnd = after };
        body.ExceptionHandlers.Add(handler);
    }

    // Calls of a method with one text and no value.
    static void ReplaceCalls(MethodBody body)
    {
        foreach (var call in body.Instructions.Where(IsVoidCall).ToList())
        {
            var method = (MethodReference)call.Operand;
            if (method.HasThis || method.Parameters.Count != 1 || method.Parameters[0].ParameterType.FullName != "System.String") continue;
            call.Operand = say;
            changed.Add(call);
        }
    }

    static void ChangeConstants(MethodBody body)
    {
        foreach (var number in body.Instructions.Where(i => i.OpCode == OpCodes.Ldc_I4).Take(1)) number.Operand = (int)number.Operand + 1000;
    }

    // The code from a target of a branch to a `throw` goes to the end of its method.
    static void MoveThrows(MethodBody body)
    {
        if (body.HasExceptionHandlers) return;
        foreach (var exit in body.Instructions.Where(i => i.OpCode == OpCodes.Throw).ToList())
        {
            var block = new List<Instruction>();
            for (var at = exit; at != null && block.Count < 12; at = at.Previous)
            {
                block.Insert(0, at);
                if (at.Previous == null || at.Previous.OpCode.FlowControl == FlowControl.Cond_Branch) break;
            }
            var before = block[0].Previous;
            bool isBranch = before != null && (before.OpCode == OpCodes.Brtrue || before.OpCode == OpCodes.Brfalse);
            if (!isBranch || exit.Next == null || before.Operand != exit.Next) continue;
            if (block.Any(at => at.OpCode.FlowControl == FlowControl.Branch)) continue;
            before.OpCode = before.OpCode == OpCodes.Brtrue ? OpCodes.Brfalse : OpCodes.Brtrue;
            before.Operand = block[0];
            changed.Add(before);
            foreach (var at in block) body.Instructions.Remove(at);
            foreach (var at in block) body.Instructions.Add(at);
        }
    }

    // The code of each static method goes to a new one, which the old one calls.
    static void MoveOut(ModuleDefinition module)
    {
        foreach (var method in Methods(module).Where(m => m.IsStatic && !m.IsConstructor && m != say && m != sayThis && !m.HasGenericParameters
            && !m.DeclaringType.HasGenericParameters).ToList())
        {
            var moved = new MethodDefinition("<Moved>" + method.Name, method.Attributes, method.ReturnType);
            foreach (var parameter in method.Parameters) moved.Parameters.Add(new ParameterDefinition(parameter.Name, 0, parameter.ParameterType));
            Lengthen(method.Body);
            foreach (var local in method.Body.Variables) moved.Body.Variables.Add(local);
            foreach (var instruction in method.Body.Instructions)
            {
                var argument = instruction.Operand as ParameterDefinition;
                if (argument != null) instruction.Operand = moved.Parameters[argument.Index];
                moved.Body.Instructions.Add(instruction);
            }
            foreach (var handler in method.Body.ExceptionHandlers) moved.Body.ExceptionHandlers.Add(handler);
            moved.Body.InitLocals = method.Body.InitLocals;
            method.DeclaringType.Methods.Insert(0, moved);
            method.Body = new MethodBody(method);
            var code = method.Body.GetILProcessor();
            foreach (var parameter in method.Parameters) code.Emit(OpCodes.Ldarg, parameter);
            code.Emit(OpCodes.Call, moved);
            code.Emit(OpCodes.Ret);
        }
    }

    static HashSet<object> Named(ModuleDefinition module)
    {
        var operands = Methods(module).SelectMany(method => method.Body.Instructions).Select(i => i.Operand).OfType<MethodReference>();
        return new HashSet<object>(operands.Select(method => (object)method.GetElementMethod()).Concat(operands.OfType<MethodDefinition>()));
    }

    static void RemoveMethods(ModuleDefinition module)
    {
        var named = Named(module);
        var names = new HashSet<string>(named.OfType<MethodReference>().Select(method => method.Name));
        foreach (var type in module.GetTypes())
            foreach (var method in type.Methods.Where(m => !m.IsVirtual && !m.IsSpecialName && !m.IsRuntimeSpecialName && m != module.EntryPoint
                && !names.Contains(m.Name) && m != say && m != sayThis).ToList()) type.Methods.Remove(method);
    }

    static void RemoveTypes(ModuleDefinition module)
    {
        var parts = module.GetTypes().SelectMany(Parts).ToList();
        foreach (var type in module.Types.Skip(2).Where(type => !type.HasNestedTypes && (module.EntryPoint == null || type != module.EntryPoint.DeclaringType)
            && !parts.Any(part => part.Item1 != type && part.Item2.Contains(type.Name))).Take(5).ToList()) module.Types.Remove(type);
    }

    // The names that each type uses.
    static IEnumerable<Tuple<TypeDefinition, string>> Parts(TypeDefinition type)
    {
        var names = new List<string>();
        if (type.BaseType != null) names.Add(type.BaseType.FullName);
        names.AddRange(type.Interfaces.Select(each => each.InterfaceType.FullName));
        names.AddRange(type.CustomAttributes.Select(each => each.AttributeType.FullName + string.Join(" ", each.ConstructorArguments.Select(a => a.Value))));
        names.AddRange(type.Fields.Select(field => field.FieldType.FullName));
        foreach (var method in type.Methods)
        {
            names.Add(method.FullName.Replace(" " + type.FullName + "::", " "));
            names.AddRange(method.Overrides.Select(each => each.FullName));
            names.AddRange(method.CustomAttributes.Select(each => each.AttributeType.FullName));
            if (!method.HasBody) continue;
            names.AddRange(method.Body.Variables.Select(local => local.VariableType.FullName));
            names.AddRange(method.Body.Instructions.Select(i => i.Operand).OfType<MemberReference>().Select(each => each.FullName));
            names.AddRange(method.Body.ExceptionHandlers.Where(each => each.CatchType != null).Select(each => each.CatchType.FullName));
        }
        return names.Select(name => Tuple.Create(type, name));
    }

    static void AddTypes(ModuleDefinition module)
    {
        for (int n = 0; n < 3; n++)
        {
            var type = new TypeDefinition("Added", "Type" + n, TypeAttributes.Class, module.TypeSystem.Object);
            type.Fields.Add(new FieldDefinition("field", FieldAttributes.Private, module.TypeSystem.Int32));
            var method = new MethodDefinition("Get", MethodAttributes.Public, module.TypeSystem.Int32);
            foreach (var i in new[] { Instruction.Create(OpCodes.Ldarg_0), Instruction.Create(OpCodes.Ldfld, type.Fields[0]), Instruction.Create(OpCodes.Ret) })
                method.Body.Instructions.Add(i);
            type.Methods.Add(method);
            module.Types.Insert(1 + 2 * n, type);
        }
    }

    static void ReverseTypes(ModuleDefinition module)
    {
        var types = module.Types.Skip(1).Reverse().ToList();
        foreach (var type in types) module.Types.Remove(type);
        foreach (var type in types) module.Types.Add(type);
        foreach (var type in module.GetTypes())
        {
            var methods = type.Methods.Reverse().ToList();
            type.Methods.Clear();
            foreach (var method in methods) type.Methods.Add(method);
        }
    }

    // Static methods go to another type.
    static void MoveMethods(ModuleDefinition module)
    {
        var home = new TypeDefinition("Moved", "Home", TypeAttributes.Class | TypeAttributes.Sealed | TypeAttributes.Abstract, module.TypeSystem.Object);
        foreach (var method in module.GetTypes().SelectMany(type => type.Methods).Where(m => m.IsStatic && !m.IsConstructor && m != say && m != sayThis
            && !m.DeclaringType.HasGenericParameters && m != module.EntryPoint && !m.IsSpecialName && m.HasBody).ToList())
        {
            method.DeclaringType.Methods.Remove(method);
            home.Methods.Add(method);
        }
        module.Types.Add(home);
    }

    static void UnnestTypes(ModuleDefinition module)
    {
        foreach (var type in module.GetTypes().Where(type => type.IsNested && !type.HasGenericParameters).ToList())
        {
            var outer = type.DeclaringType;
            outer.NestedTypes.Remove(type);
            type.IsNotPublic = true;
            type.Namespace = outer.Namespace;
            while (module.GetType(type.Namespace, type.Name) != null) type.Name = outer.Name + type.Name;
            module.Types.Add(type);
        }
    }

    static string Arity(TypeDefinition type)
    {
        int at = type.Name.IndexOf('`');
        return at < 0 ? "" : type.Name.Substring(at);
    }

    // A reference of a generic type's member has the name of the member, as Cecil writes it.
    static void RenameMethods(ModuleDefinition module)
    {
        int n = 0;
        foreach (var method in module.GetTypes().Where(t => !t.IsInterface && t != say.DeclaringType).SelectMany(type => type.Methods)
            .Where(m => !m.IsVirtual && !m.IsConstructor && !m.IsRuntime && m.HasBody && !m.DeclaringType.HasGenericParameters)) method.Name = "m" + n++;
    }

    static void RenameAll(ModuleDefinition module)
    {
        int n = 0;
        RenameMethods(module);
        foreach (var type in module.GetTypes().Skip(1).Where(t => t != say.DeclaringType).ToList())
        {
            type.Name = "T" + n++ + Arity(type);
            if (!type.IsNested) type.Namespace = "";
            if (!type.HasGenericParameters && !type.IsEnum) foreach (var field in type.Fields) field.Name = "f" + n++;
        }
    }
}
