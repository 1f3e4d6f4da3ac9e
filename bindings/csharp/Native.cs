// The functions of libppdb, by the library for this processor: libppdb-x64.so, ppdb-x64.dll or libppdb-arm64.so, beside the assembly or where
// the runtime looks for native libraries.
using System;
using System.Runtime.InteropServices;

namespace PortablePdb
{
    [StructLayout(LayoutKind.Sequential)]
    struct Piece
    {
        public UIntPtr Start, NameLength, Length;
    }

    static class OnX64
    {
        const string Library = "ppdb-x64";

        [DllImport(Library, EntryPoint = "ppdb_version")]
        internal static extern uint Version();

        [DllImport(Library, EntryPoint = "ppdb_verify")]
        internal static extern byte Verify(byte[] file, UIntPtr length, out Fault fault);

        [DllImport(Library, EntryPoint = "ppdb_lines")]
        internal static extern byte Lines(byte[] file, UIntPtr length, Frame[] frames, UIntPtr count, [In, Out] Line[] lines, UIntPtr room);

        [DllImport(Library, EntryPoint = "ppdb_run")]
        internal static extern byte Run(byte[] words, UIntPtr wordsLength, byte[] files, UIntPtr filesLength, Piece[] pieces, UIntPtr count,
            [In, Out] byte[] text, UIntPtr textRoom, out UIntPtr textNeeded, [In, Out] byte[] made, UIntPtr madeRoom, out UIntPtr madeNeeded);
    }

    static class OnArm64
    {
        const string Library = "ppdb-arm64";

        [DllImport(Library, EntryPoint = "ppdb_version")]
        internal static extern uint Version();

        [DllImport(Library, EntryPoint = "ppdb_verify")]
        internal static extern byte Verify(byte[] file, UIntPtr length, out Fault fault);

        [DllImport(Library, EntryPoint = "ppdb_lines")]
        internal static extern byte Lines(byte[] file, UIntPtr length, Frame[] frames, UIntPtr count, [In, Out] Line[] lines, UIntPtr room);

        [DllImport(Library, EntryPoint = "ppdb_run")]
        internal static extern byte Run(byte[] words, UIntPtr wordsLength, byte[] files, UIntPtr filesLength, Piece[] pieces, UIntPtr count,
            [In, Out] byte[] text, UIntPtr textRoom, out UIntPtr textNeeded, [In, Out] byte[] made, UIntPtr madeRoom, out UIntPtr madeNeeded);
    }
}
