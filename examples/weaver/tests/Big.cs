// Makes a big module of many, for a measure of `ppdb-tools map`: `mono Big.exe OUT PROGRAM LIBRARY..` moves the types of the libraries into
// the program, as Merge.cs does with one. It writes no map, and nobody runs OUT. Compile it with Merge.cs, MapWriter.cs and -main:Big.
using System.Linq;
using Mono.Cecil;

static class Big
{
    static void Main(string[] words)
    {
        var immediate = new ReaderParameters(ReadingMode.Immediate);
        var program = ModuleDefinition.ReadModule(words[1], immediate);
        foreach (var library in words.Skip(2).Select(word => ModuleDefinition.ReadModule(word, immediate)))
        {
            var importer = new Importer(program, library);
            importer.Replace(program);
            importer.Replace(library);
            Merge.Move(library, program);
        }
        program.Write(words[0]);
    }
}
