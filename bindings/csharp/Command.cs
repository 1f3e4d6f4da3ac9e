// The command `ppdb` of the .NET tool: the proved program as a library, for the processor and the system that it finds itself on.
using System;
using System.Runtime.InteropServices;
using System.Text;

namespace PortablePdb
{
    static class Command
    {
        static int Main(string[] args)
        {
            var words = new IntPtr[args.Length + 1];
            words[0] = InUtf8("ppdb");
            for (int at = 0; at < args.Length; at++) words[at + 1] = InUtf8(args[at]);
            try
            {
                return OnX64(words.Length, words);
            }
            catch (Exception error) when (error is DllNotFoundException || error is BadImageFormatException)
            {
                return OnArm64(words.Length, words);
            }
        }

        /// <summary>A word as the program takes it, up to a zero byte. One that is no UTF-16 becomes a text that is no UTF-8, which the program refuses.</summary>
        static IntPtr InUtf8(string word)
        {
            byte[] bytes;
            try
            {
                bytes = new UTF8Encoding(false, true).GetBytes(word);
            }
            catch (EncoderFallbackException)
            {
                bytes = new byte[] { 0xff };
            }
            IntPtr made = Marshal.AllocHGlobal(bytes.Length + 1);
            Marshal.Copy(bytes, 0, made, bytes.Length);
            Marshal.WriteByte(made, bytes.Length, 0);
            return made;
        }

        [DllImport("ppdb-program-x64", EntryPoint = "ppdb_program")]
        static extern int OnX64(int count, IntPtr[] words);

        [DllImport("ppdb-program-arm64", EntryPoint = "ppdb_program")]
        static extern int OnArm64(int count, IntPtr[] words);
    }
}
