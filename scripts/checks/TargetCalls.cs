// Calls DebugFile.Run of bindings/csharp for each run of a file, as target_calls.c does, and writes the answers to standard output.
using System;
using System.Collections.Generic;
using System.IO;
using System.Text;
using PortablePdb;

static class TargetCalls
{
    static void Main(string[] args)
    {
        using (var runs = new BinaryReader(File.OpenRead(args[0])))
        using (var answers = new BinaryWriter(Console.OpenStandardOutput()))
        {
            var blobs = new byte[runs.ReadUInt32()][];
            for (int at = 0; at < blobs.Length; at++) blobs[at] = Bytes(runs);
            for (uint left = runs.ReadUInt32(); left > 0; left--)
            {
                string[] words = Encoding.UTF8.GetString(Bytes(runs)).Split('\0');
                Array.Resize(ref words, words.Length - 1);
                var files = new KeyValuePair<string, byte[]>[runs.ReadUInt32()];
                for (int at = 0; at < files.Length; at++)
                {
                    string name = Encoding.UTF8.GetString(Bytes(runs));
                    files[at] = new KeyValuePair<string, byte[]>(name, blobs[runs.ReadUInt32()]);
                }
                Answer answer = DebugFile.Run(words, files);
                answers.Write(answer.Status);
                foreach (byte[] part in new[] { answer.Output, answer.Made ?? new byte[0] })
                {
                    answers.Write((ulong)part.Length);
                    answers.Write(part);
                }
            }
        }
    }

    static byte[] Bytes(BinaryReader from) => from.ReadBytes((int)from.ReadUInt32());
}
