// Reads an assembly with its debug file, gives the outer scope of each method constants without a value, and writes both again:
// mcs -r:Mono.Cecil.dll nulls.cs && mono nulls.exe IN.exe OUT.exe
using System.Linq;
using Mono.Cecil;
using Mono.Cecil.Cil;

static class Nulls
{
    static void Main(string[] words)
    {
        var symbols = new ReaderParameters { ReadSymbols = true, SymbolReaderProvider = new PortablePdbReaderProvider() };
        var module = ModuleDefinition.ReadModule(words[0], symbols);
        foreach (var method in module.GetTypes().SelectMany(type => type.Methods).Where(method => method.DebugInformation.Scope != null))
        {
            var constants = method.DebugInformation.Scope.Constants;
            constants.Add(new ConstantDebugInformation("nothing", module.TypeSystem.Object, null));
            constants.Add(new ConstantDebugInformation("text", module.TypeSystem.String, null));
            constants.Add(new ConstantDebugInformation("limit", module.TypeSystem.Int32, 5));
        }
        module.Write(words[1], new WriterParameters { WriteSymbols = true, SymbolWriterProvider = new PortablePdbWriterProvider() });
    }
}
