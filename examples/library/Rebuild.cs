// Rebuilds a debug file in memory: Rebuild IN OUT writes the one canonical file that says what IN says.
using System;
using System.IO;
using System.Runtime.InteropServices;
using System.Text;

static class Rebuild
{
    [StructLayout(LayoutKind.Sequential)]
    struct Piece
    {
        public UIntPtr Start, NameLength, Length;
    }

    [DllImport("ppdb")]
    static extern byte ppdb_run(byte[] words, UIntPtr wordsLength, byte[] files, UIntPtr filesLength, Piece[] pieces, UIntPtr count,
        [In, Out] byte[] text, UIntPtr textRoom, out UIntPtr textNeeded, [In, Out] byte[] made, UIntPtr madeRoom, out UIntPtr madeNeeded);

    static int Main(string[] args)
    {
        byte[] words = Encoding.UTF8.GetBytes("rebuild\0IN\0OUT\0");
        byte[] file = File.ReadAllBytes(args[0]);
        byte[] files = new byte[2 + file.Length];
        Encoding.UTF8.GetBytes("IN").CopyTo(files, 0);
        file.CopyTo(files, 2);
        Piece[] pieces = { new Piece { Start = UIntPtr.Zero, NameLength = (UIntPtr)2, Length = (UIntPtr)file.Length } };
        // A text that says why nothing is made is short; the made file has about the length of the file.
        byte[] text = new byte[1024], made = new byte[file.Length + 1];
        while (true)
        {
            byte status = ppdb_run(words, (UIntPtr)words.Length, files, (UIntPtr)files.Length, pieces, (UIntPtr)1,
                text, (UIntPtr)text.Length, out UIntPtr textNeeded, made, (UIntPtr)made.Length, out UIntPtr madeNeeded);
            if ((ulong)textNeeded > (ulong)text.Length || (ulong)madeNeeded > (ulong)made.Length)
            {
                text = new byte[(ulong)textNeeded + 1];
                made = new byte[(ulong)madeNeeded + 1];
                continue;
            }
            Console.Write(Encoding.UTF8.GetString(text, 0, (int)textNeeded));
            if (status == 0)
            {
                Array.Resize(ref made, (int)madeNeeded);
                File.WriteAllBytes(args[1], made);
            }
            return status;
        }
    }
}
