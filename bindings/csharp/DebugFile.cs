// Portable PDB debug files by the proved library, over bytes. docs/LIBRARY.md says what each call promises.
using System;
using System.Collections.Generic;
using System.Runtime.InteropServices;
using System.Text;

namespace PortablePdb
{
    /// <summary>The first rule that a file breaks, and where: <see cref="Code"/> is 1 to 40 for F1 to F40.</summary>
    [StructLayout(LayoutKind.Sequential)]
    public struct Fault
    {
        public uint Row, Byte;
        public byte Code, Part, Table, Column;
    }

    /// <summary>A place in a method: the row of MethodDef (the token &amp; 0x00ffffff) and the IL offset.</summary>
    [StructLayout(LayoutKind.Sequential)]
    public struct Frame
    {
        public uint Method, Offset;

        public Frame(uint method, uint offset)
        {
            Method = method;
            Offset = offset;
        }
    }

    public enum LineKind : uint { NoMethod, NoPoint, Hidden, Point }

    /// <summary>The sequence point of a frame: the last point of its method at or before its offset.</summary>
    [StructLayout(LayoutKind.Sequential)]
    public struct Line
    {
        public LineKind Kind;
        public uint Document, Offset, StartLine, StartColumn, EndLine, EndColumn;
    }

    /// <summary>What a command answers: the exit status of the program, its text, and the file that it writes, or null.</summary>
    public sealed class Answer
    {
        public byte Status { get; internal set; }
        public byte[] Output { get; internal set; }
        public byte[] Made { get; internal set; }
        public string Text => Encoding.UTF8.GetString(Output);
    }

    /// <summary>A call without an answer; the status says why: 5 out of memory, 7 the file is too long, 1 it breaks a rule.</summary>
    public sealed class FailedException : Exception
    {
        public byte Status { get; }

        internal FailedException(byte status) : base("ppdb ended with status " + status) => Status = status;
    }

    /// <summary>The calls of the library. Any number of threads may make them at the same time.</summary>
    public static class DebugFile
    {
        const byte Done = 0, Refused = 1;
        static readonly bool IsArm64 = !LoadsForX64();

        /// <summary>The version of the library, as 1002003 for 1.2.3.</summary>
        public static uint Version => IsArm64 ? OnArm64.Version() : OnX64.Version();

        /// <summary>The first fault of a file, or null if it is accepted.</summary>
        public static Fault? Verify(byte[] file)
        {
            Fault fault;
            byte status = IsArm64 ? OnArm64.Verify(NotEmpty(file), Length(file), out fault) : OnX64.Verify(NotEmpty(file), Length(file), out fault);
            if (status > Refused) throw new FailedException(status);
            return status == Refused ? fault : (Fault?)null;
        }

        /// <summary>The line of each frame, in their order.</summary>
        public static Line[] Lines(byte[] file, params Frame[] frames)
        {
            var lines = new Line[frames.Length];
            if (frames.Length == 0) return lines;
            UIntPtr count = (UIntPtr)frames.Length;
            byte status = IsArm64
                ? OnArm64.Lines(NotEmpty(file), Length(file), frames, count, lines, count)
                : OnX64.Lines(NotEmpty(file), Length(file), frames, count, lines, count);
            if (status != Done) throw new FailedException(status);
            return lines;
        }

        /// <summary>Runs a command over files by their names, as Run(new[] { "show", "app.pdb" }, files).</summary>
        public static Answer Run(IEnumerable<string> words, IEnumerable<KeyValuePair<string, byte[]>> files)
        {
            var spelled = new StringBuilder();
            foreach (string word in words) spelled.Append(word).Append('\0');
            return Run(Encoding.UTF8.GetBytes(spelled.ToString()), Joined(files, out Piece[] pieces), pieces);
        }

        static Answer Run(byte[] words, byte[] joined, Piece[] pieces)
        {
            byte[] text = new byte[1 << 16], made = new byte[joined.Length + 1];
            while (true)
            {
                byte status = Call(words, joined, pieces, text, out ulong textNeeded, made, out ulong madeNeeded);
                bool fits = textNeeded <= (ulong)text.Length && madeNeeded <= (ulong)made.Length;
                if (textNeeded > (ulong)text.Length) text = new byte[textNeeded];
                if (madeNeeded > (ulong)made.Length) made = new byte[madeNeeded];
                if (!fits) continue;
                Array.Resize(ref text, (int)textNeeded);
                Array.Resize(ref made, (int)madeNeeded);
                return new Answer { Status = status, Output = text, Made = madeNeeded == 0 ? null : made };
            }
        }

        static byte Call(byte[] words, byte[] files, Piece[] pieces, byte[] text, out ulong textNeeded, byte[] made, out ulong madeNeeded)
        {
            UIntPtr textLength, madeLength, filesLength = (UIntPtr)(files.Length - 1), count = (UIntPtr)(pieces.Length - 1);
            byte[] some = NotEmpty(words);
            byte status = IsArm64
                ? OnArm64.Run(some, Length(words), files, filesLength, pieces, count, text, Length(text), out textLength, made, Length(made), out madeLength)
                : OnX64.Run(some, Length(words), files, filesLength, pieces, count, text, Length(text), out textLength, made, Length(made), out madeLength);
            textNeeded = (ulong)textLength;
            madeNeeded = (ulong)madeLength;
            return status;
        }

        /// <summary>The names and bytes of all files, and where they are. Both arrays have one item more, since no empty array has an address.</summary>
        static byte[] Joined(IEnumerable<KeyValuePair<string, byte[]>> files, out Piece[] all)
        {
            var pieces = new List<Piece>();
            using (var joined = new System.IO.MemoryStream())
            {
                foreach (var file in files)
                {
                    byte[] name = Encoding.UTF8.GetBytes(file.Key);
                    pieces.Add(new Piece { Start = (UIntPtr)joined.Length, NameLength = Length(name), Length = Length(file.Value) });
                    joined.Write(name, 0, name.Length);
                    joined.Write(file.Value, 0, file.Value.Length);
                }
                joined.WriteByte(0);
                pieces.Add(new Piece());
                all = pieces.ToArray();
                return joined.ToArray();
            }
        }

        static bool LoadsForX64()
        {
            try
            {
                return OnX64.Version() != 0;
            }
            catch (Exception error) when (error is DllNotFoundException || error is BadImageFormatException)
            {
                return false;
            }
        }

        static UIntPtr Length(byte[] bytes) => (UIntPtr)bytes.Length;

        static byte[] NotEmpty(byte[] bytes) => bytes.Length == 0 ? new byte[1] : bytes;
    }
}
