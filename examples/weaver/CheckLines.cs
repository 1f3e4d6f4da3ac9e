// Compares what two debug files say of the same methods, so that you can test your tool and its maps. It needs Mono.Cecil 0.10 or later.
//     mono CheckLines.exe OLD NEW
// OLD is the module before your tool changed it, NEW the new one; each has its debug file beside it. For a method of both modules it
// prints what only one of the two has, with `-` if that is OLD and `+` if it is NEW: a line and the instruction at it, a local with its
// type and the number of instructions that use it, a constant. An instruction that your tool changed on purpose is printed too. The
// status is 1 if anything is printed.
using System;
using System.Collections.Generic;
using System.Linq;
using Mono.Cecil;
using Mono.Cecil.Cil;

static class CheckLines
{
    static int Main(string[] words)
    {
        if (words.Length != 2)
        {
            Console.Error.WriteLine("usage: mono CheckLines.exe OLD NEW");
            return 2;
        }
        int differ = 0;
        using (var old = Read(words[0]))
        using (var now = Read(words[1]))
        {
            var there = Methods(now).GroupBy(method => method.FullName).ToDictionary(group => group.Key, group => group.First());
            foreach (var method in Methods(old).Where(method => there.ContainsKey(method.FullName)))
            {
                var before = Facts(method).ToList();
                var after = Facts(there[method.FullName]).ToList();
                if (before.SequenceEqual(after)) continue;
                differ++;
                Console.WriteLine(method);
                foreach (var fact in Without(before, after)) Console.WriteLine("- " + fact);
                foreach (var fact in Without(after, before)) Console.WriteLine("+ " + fact);
            }
        }
        Console.WriteLine(differ + " methods differ");
        return differ == 0 ? 0 : 1;
    }

    static ModuleDefinition Read(string path)
    {
        return ModuleDefinition.ReadModule(path, new ReaderParameters { ReadSymbols = true, SymbolReaderProvider = new PortablePdbReaderProvider() });
    }

    static IEnumerable<MethodDefinition> Methods(ModuleDefinition module)
    {
        return module.GetTypes().SelectMany(type => type.Methods).Where(method => method.HasBody);
    }

    // The facts of one list that another one has not, or not as often.
    static IEnumerable<string> Without(List<string> facts, List<string> others)
    {
        var left = others.ToList();
        return facts.Where(fact => !left.Remove(fact)).ToList();
    }

    static int Slot(Instruction instruction)
    {
        if (instruction.Operand is VariableDefinition) return ((VariableDefinition)instruction.Operand).Index;
        var name = instruction.OpCode.Name;
        return (name.StartsWith("ldloc.") || name.StartsWith("stloc.")) && char.IsDigit(name[6]) ? name[6] - '0' : -1;
    }

    static IEnumerable<string> Facts(MethodDefinition method)
    {
        var code = method.Body.Instructions.ToDictionary(instruction => instruction.Offset, instruction => instruction.OpCode.Name.Split('.')[0]);
        foreach (var point in method.DebugInformation.SequencePoints)
            yield return point.Document.Url + (point.IsHidden ? " hidden" : ":" + point.StartLine + ":" + point.StartColumn) + " at "
                + (code.ContainsKey(point.Offset) ? code[point.Offset] : "no instruction");
        foreach (var scope in method.DebugInformation.GetScopes())
        {
            foreach (var local in scope.Variables.Where(local => local.Index < method.Body.Variables.Count))
                yield return "local " + local.Name + " " + method.Body.Variables[local.Index].VariableType + " used "
                    + method.Body.Instructions.Count(instruction => Slot(instruction) == local.Index) + " times";
            foreach (var constant in scope.Constants) yield return "constant " + constant.Name + " " + constant.ConstantType + " " + constant.Value;
        }
    }
}
