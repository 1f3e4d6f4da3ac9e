// `mono PatchIdentity.exe MODULE DEBUGFILE` writes the identity of a Portable PDB file into the debug directory of its module, for example
// after `ppdb remap` without --keep-id:
//   the entry of type 2 (CodeView)    gets the first 16 bytes of the identity as its GUID, and the last four as its time stamp
//   the entry of type 19 (checksum)   gets the SHA-256 of the debug file with 20 zero bytes in place of the identity
// Sign the module afterwards. In a tool of your own, leave out Main, and call PatchIdentity.Patch.
//
// Copyright 2026 Jamtrov maintainers
// Licensed under the Apache License, Version 2.0: https://www.apache.org/licenses/LICENSE-2.0
// Copy this file into your tool, with these lines.
using System;
using System.IO;
using System.Security.Cryptography;
using System.Text;

public static class PatchIdentity
{
    const int CodeView = 2, Checksum = 19, IdentityLength = 20, EntryLength = 28;

    static int Main(string[] words)
    {
        if (words.Length != 2)
        {
            Console.Error.WriteLine("usage: mono PatchIdentity.exe MODULE DEBUGFILE");
            return 2;
        }
        try
        {
            Patch(words[0], words[1]);
            return 0;
        }
        catch (Exception fault)
        {
            Console.Error.WriteLine("PatchIdentity: " + fault.Message);
            return 1;
        }
    }

    /// Writes the identity of a debug file, and its checksum where the module has one, into the file of the module.
    public static void Patch(string module, string debugFile)
    {
        var bytes = File.ReadAllBytes(module);
        Patch(bytes, File.ReadAllBytes(debugFile));
        File.WriteAllBytes(module, bytes);
    }

    /// Writes the identity of the debug file, and its checksum where the module has one, into the bytes of the module.
    public static void Patch(byte[] module, byte[] debugFile)
    {
        if (Ascii(module, 0, 2) != "MZ") throw new BadImageFormatException("the first file is no module");
        if (Ascii(debugFile, 0, 4) != "BSJB") throw new BadImageFormatException("the second file is no Portable PDB file");
        int place = IdentityPlace(debugFile);
        var identity = new byte[IdentityLength];
        Array.Copy(debugFile, place, identity, 0, IdentityLength);
        var hashed = (byte[])debugFile.Clone();
        Array.Clear(hashed, place, IdentityLength);
        int optional = Int(module, 0x3c) + 24;
        int directory = optional + (Short(module, optional) == 0x20b ? 112 : 96) + 6 * 8; // data directory 6: Debug
        bool isNamed = false;
        int first = Int(module, directory) == 0 ? 0 : Place(module, Int(module, directory));
        for (int entry = first; entry < first + Int(module, directory + 4); entry += EntryLength)
        {
            int kind = Int(module, entry + 12), data = Int(module, entry + 24);
            if (kind == CodeView) PatchCodeView(module, entry, data, identity);
            if (kind == Checksum) PatchChecksum(module, data, hashed);
            isNamed |= kind == CodeView;
        }
        if (!isNamed) throw new NotSupportedException("the module names no debug file: its debug directory has no entry of type 2");
    }

    static void PatchCodeView(byte[] module, int entry, int data, byte[] identity)
    {
        Array.Copy(identity, 16, module, entry + 4, 4);
        Array.Copy(identity, 0, module, data + 4, 16);
    }

    static void PatchChecksum(byte[] module, int data, byte[] hashed)
    {
        const string name = "SHA256\0";
        if (Ascii(module, data, name.Length) != name) throw new NotSupportedException("the checksum of the module is not SHA256");
        using (var sha = SHA256.Create()) sha.ComputeHash(hashed).CopyTo(module, data + name.Length);
    }

    // The place of the identity: the stream #Pdb begins with it.
    static int IdentityPlace(byte[] file)
    {
        int at = 16 + Int(file, 12);
        int streams = Short(file, at + 2);
        for (at += 4; streams > 0; streams--)
        {
            if (Ascii(file, at + 8, 5) == "#Pdb\0") return Int(file, at);
            at = at + 8 + (Array.IndexOf(file, (byte)0, at + 8) - at - 8) / 4 * 4 + 4;
        }
        throw new BadImageFormatException("no Portable PDB file: it has no stream #Pdb");
    }

    // The place in the file of an address in memory.
    static int Place(byte[] module, int address)
    {
        int coff = Int(module, 0x3c) + 4, section = coff + 20 + Short(module, coff + 16);
        for (int count = Short(module, coff + 2); count > 0; count--, section += 40)
        {
            int start = Int(module, section + 12);
            if (address >= start && address < start + Int(module, section + 16)) return address - start + Int(module, section + 20);
        }
        throw new BadImageFormatException("no section has the address " + address);
    }

    static int Int(byte[] bytes, int at) { return BitConverter.ToInt32(bytes, at); }
    static int Short(byte[] bytes, int at) { return BitConverter.ToUInt16(bytes, at); }
    static string Ascii(byte[] bytes, int at, int length) { return Encoding.ASCII.GetString(bytes, at, Math.Min(length, bytes.Length - at)); }
}
