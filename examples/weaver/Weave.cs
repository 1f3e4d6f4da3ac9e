// A small weaver: each method says its name on standard error when it is entered. `mono Weave.exe IN OUT WAY [TYPE]..` writes the
// module OUT and its map OUT.map. The methods of a TYPE stay as they are. WAY is one of these:
//   plain       nothing else
//   simplified  instructions get their long form, and the new local comes before the others, so that their slots change
//   removed     types and methods that are marked Obsolete are removed
using System;
using System.Collections.Generic;
using System.IO;
using System.Linq;
using Mono.Cecil;
using Mono.Cecil.Cil;

static class Weave
{
    static void Main(string[] words)
    {
        using (var module = ModuleDefinition.ReadModule(words[0]))
        {
            var map = MapWriter.Start(module);
            bool simplified = words[2] == "simplified";
            if (words[2] == "removed") Remove(module);
            var methods = module.GetTypes().Where(type => !words.Skip(3).Contains(type.Name)).SelectMany(type => type.Methods).ToList();
            var enter = Enter(module, words[2]);
            foreach (var method in methods.Where(method => method.HasBody))
            {
                if (simplified) LongForms.Of(method.Body);
                Insert(method, enter, simplified ? 0 : method.Body.Variables.Count);
            }
            map.Keep(module);
            module.Write(words[1], map.WriterParameters());
            map.Save(words[1], words[1] + ".map");
            foreach (var warning in map.Warnings) Console.WriteLine(warning);
        }
    }

    static void Remove(ModuleDefinition module)
    {
        Func<ICustomAttributeProvider, bool> obsolete = item => item.CustomAttributes.Any(a => a.AttributeType.Name == "ObsoleteAttribute");
        foreach (var type in module.Types.Where(type => obsolete(type)).ToList()) module.Types.Remove(type);
        foreach (var type in module.GetTypes())
            foreach (var method in type.Methods.Where(method => obsolete(method)).ToList()) type.Methods.Remove(method);
    }

    // Adds the method that is called. It is in the first type, so all other methods get new rows.
    static MethodDefinition Enter(ModuleDefinition module, string way)
    {
        var attributes = MethodAttributes.Assembly | MethodAttributes.Static | MethodAttributes.HideBySig;
        var enter = new MethodDefinition("<" + way + ">Enter", attributes, module.TypeSystem.Void);
        enter.Parameters.Add(new ParameterDefinition("method", ParameterAttributes.None, module.TypeSystem.String));
        var code = enter.Body.GetILProcessor();
        code.Emit(OpCodes.Call, module.ImportReference(typeof(Console).GetMethod("get_Error")));
        code.Emit(OpCodes.Ldarg_0);
        code.Emit(OpCodes.Callvirt, module.ImportReference(typeof(TextWriter).GetMethod("WriteLine", new[] { typeof(string) })));
        code.Emit(OpCodes.Ret);
        module.Types[0].Methods.Add(enter);
        return enter;
    }

    // string entered = NAME; Enter(entered);
    static void Insert(MethodDefinition method, MethodDefinition enter, int slot)
    {
        var entered = new VariableDefinition(method.Module.TypeSystem.String);
        method.Body.Variables.Insert(slot, entered);
        var code = method.Body.GetILProcessor();
        var first = method.Body.Instructions[0];
        code.InsertBefore(first, code.Create(OpCodes.Ldstr, method.FullName));
        code.InsertBefore(first, code.Create(OpCodes.Stloc, entered));
        code.InsertBefore(first, code.Create(OpCodes.Ldloc, entered));
        code.InsertBefore(first, code.Create(OpCodes.Call, enter));
    }
}

// Gives branches, and instructions that load and store locals, the form that reaches each offset and names its local.
static class LongForms
{
    static readonly Dictionary<string, OpCode> all =
        typeof(OpCodes).GetFields().ToDictionary(field => field.Name, field => (OpCode)field.GetValue(null));

    public static void Of(MethodBody body)
    {
        foreach (var instruction in body.Instructions)
        {
            var name = instruction.OpCode.Code.ToString();
            if (name.StartsWith("Ldloc_") || name.StartsWith("Stloc_") || name.StartsWith("Ldloca_"))
            {
                if (instruction.Operand == null) instruction.Operand = body.Variables[name[6] - '0'];
                instruction.OpCode = all[name.Substring(0, name.IndexOf('_'))];
            }
            else if (instruction.OpCode.OperandType == OperandType.ShortInlineBrTarget)
                instruction.OpCode = all[name.Substring(0, name.Length - 2)];
        }
    }
}
