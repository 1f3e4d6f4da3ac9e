// A small merger: a program and a library that it uses become one module. It needs Mono.Cecil 0.11 and C# 7.
//     mono Merge.exe PROGRAM LIBRARY OUT [--rename OLD NEW].. [--link JSON]
// writes the module OUT and the maps of the two debug files, OUT.1.map and OUT.2.map, from which ppdb makes the debug file of OUT:
//     ppdb merge OUT.pdb PROGRAM.pdb OUT.1.map LIBRARY.pdb OUT.2.map --keep-id
// --rename gives a document of the library another name, --link all documents one Source Link record.
// `mono Merge.exe --names PROGRAM LIBRARY` prints the names of rows for `ppdb-tools stack-maps --names`.
// It moves types and all that is in them. It leaves out what is of a library and not of a type of it: resources, forwarded types,
// attributes of the assembly, the initializer of the module. Names of types in texts and in arguments of attributes stay as they are.
using System;
using System.Collections.Generic;
using System.Linq;
using Mono.Cecil;

static class Merge
{
    static void Main(string[] words)
    {
        if (words[0] != "--names") Write(words[0], words[1], words[2], words.Skip(3).ToArray());
        else for (int input = 1; input < words.Length; input++) PrintNames(input, ModuleDefinition.ReadModule(words[input]));
    }

    static void Write(string program, string library, string path, string[] options)
    {
        var immediate = new ReaderParameters(ReadingMode.Immediate); // what Cecil reads late it would read in the wrong module
        using (var first = ModuleDefinition.ReadModule(program, immediate))
        using (var second = ModuleDefinition.ReadModule(library, immediate))
        {
            var maps = new[] { MapWriter.Start(first), MapWriter.Start(second) };
            for (int at = 0; at < options.Length; at++)
                if (options[at] == "--rename") maps[1].Rename(options[++at], options[++at]);
                else if (options[at] == "--link") maps[0].SourceLink = maps[1].SourceLink = options[++at];
                else throw new ArgumentException("no option is " + options[at]);
            var importer = new Importer(first, second);
            foreach (var module in new[] { first, second }) importer.Replace(module);
            Move(second, first);
            foreach (var reference in first.AssemblyReferences.Where(importer.IsMerged).ToList()) first.AssemblyReferences.Remove(reference);
            foreach (var map in maps) map.Into(first, importer);
            foreach (var map in maps) map.Keep(first);
            first.Write(path, maps[0].WriterParameters());
            for (int i = 0; i < maps.Length; i++) maps[i].Save(path, path + "." + (i + 1) + ".map");
            foreach (var warning in maps.SelectMany(map => map.Warnings)) Console.WriteLine(warning);
        }
    }

    // The objects stay the same: by them MapWriter knows what moved. A type whose name is taken gets another one.
    public static void Move(ModuleDefinition from, ModuleDefinition to)
    {
        // Cecil frees a type from its module when the module itself had it, which had no nested one.
        foreach (var type in from.GetTypes().Where(type => type.IsNested).ToList())
        {
            var outer = type.DeclaringType;
            outer.NestedTypes.Remove(type);
            from.Types.Add(type);
            from.Types.Remove(type);
            outer.NestedTypes.Add(type);
        }
        foreach (var type in from.Types.Skip(1).ToList())
        {
            from.Types.Remove(type);
            while (to.GetType(type.Namespace, type.Name) != null) type.Name = "<" + from.Name + ">" + type.Name;
            to.Types.Add(type);
        }
        foreach (var method in from.Types[0].Methods.Where(method => method.Name != ".cctor").ToList())
            if (from.Types[0].Methods.Remove(method)) to.Types[0].Methods.Add(method);
    }

    // INPUT TABLE ROW NAME for the rows of Assembly, AssemblyRef, TypeDef and TypeRef: a reference has the name of what it refers to.
    static void PrintNames(int input, ModuleDefinition module)
    {
        var rows = new IMetadataTokenProvider[] { module.Assembly.Name }.Concat(module.AssemblyReferences).Concat(module.GetTypes())
            .Concat(module.GetTypeReferences());
        foreach (var row in rows)
        {
            var name = row is TypeReference type ? "[" + (type.IsDefinition ? module.Assembly.Name : type.Scope).Name + "]" + type.FullName
                : ((AssemblyNameReference)row).Name;
            Console.WriteLine("{0} {1:x2} {2} {3}", input, (uint)row.MetadataToken.TokenType >> 24, row.MetadataToken.RID, name);
        }
    }
}

// What the program has in the place of what the program or the library named: for a type of the library its definition, for the library
// the program itself; a reference to another assembly by its name.
sealed class Importer : DefaultMetadataImporter
{
    readonly ModuleDefinition library;
    readonly Dictionary<string, TypeDefinition> types;

    public Importer(ModuleDefinition program, ModuleDefinition library) : base(program)
    {
        this.library = library;
        types = library.GetTypes().ToDictionary(type => type.FullName);
    }

    public bool IsMerged(IMetadataScope scope) { return scope == library || scope is AssemblyNameReference && scope.Name == library.Assembly.Name.Name; }
    TypeReference Import(TypeReference type) { return ImportReference(type, null); }

    public override AssemblyNameReference ImportReference(AssemblyNameReference reference)
    {
        if (IsMerged(reference)) return module.Assembly.Name;
        if (module.AssemblyReferences.Contains(reference)) return reference;
        return module.AssemblyReferences.FirstOrDefault(known => known.Name == reference.Name) ?? base.ImportReference(reference);
    }

    public override TypeReference ImportReference(TypeReference type, IGenericParameterProvider context)
    {
        if (type is GenericParameter parameter) return Parameter(parameter);
        if (type is TypeSpecification specification) return Specification(specification);
        if (type == library.Types[0]) return module.Types[0];
        if (type == null || type.IsDefinition) return type;
        if (IsMerged(type.Scope)) return types[type.FullName];
        return type.Module == module ? type : base.ImportReference(type, context);
    }

    // A type of TypeSpec may name a parameter by its place alone.
    TypeReference Parameter(GenericParameter parameter)
    {
        if (parameter.Owner != null) return parameter;
        IGenericParameterProvider owner = new TypeReference("", "", module, module);
        if (parameter.Type == GenericParameterType.Method) owner = new MethodReference("", module.TypeSystem.Void, module.TypeSystem.Object);
        while (owner.GenericParameters.Count <= parameter.Position) owner.GenericParameters.Add(new GenericParameter(owner));
        return owner.GenericParameters[parameter.Position];
    }

    TypeReference Specification(TypeSpecification type)
    {
        if (type is FunctionPointerType function) return Signature(function, new FunctionPointerType());
        var element = Import(type.ElementType);
        if (type is GenericInstanceType instance) return Instance(instance, new GenericInstanceType(element));
        if (type is RequiredModifierType required) return new RequiredModifierType(Import(required.ModifierType), element);
        if (type is OptionalModifierType optional) return new OptionalModifierType(Import(optional.ModifierType), element);
        if (type is ByReferenceType) return new ByReferenceType(element);
        if (type is PointerType) return new PointerType(element);
        if (type is PinnedType) return new PinnedType(element);
        var array = (ArrayType)type;
        var made = new ArrayType(element, array.Rank);
        for (int i = 0; i < array.Rank; i++) made.Dimensions[i] = array.Dimensions[i];
        return made;
    }

    T Instance<T>(IGenericInstance old, T made) where T : IGenericInstance
    {
        foreach (var argument in old.GenericArguments) made.GenericArguments.Add(Import(argument));
        return made;
    }

    T Signature<T>(IMethodSignature old, T made) where T : IMethodSignature
    {
        made.HasThis = old.HasThis;
        made.ExplicitThis = old.ExplicitThis;
        made.CallingConvention = old.CallingConvention;
        made.ReturnType = Import(old.ReturnType);
        foreach (var parameter in old.Parameters) made.Parameters.Add(new ParameterDefinition(Import(parameter.ParameterType)));
        return made;
    }

    public override FieldReference ImportReference(FieldReference field, IGenericParameterProvider context)
    {
        if (field.IsDefinition) return field;
        var declaring = Import(field.DeclaringType);
        return declaring is TypeDefinition definition ? definition.Fields.First(found => found.Name == field.Name)
            : new FieldReference(field.Name, Import(field.FieldType), declaring);
    }

    public override MethodReference ImportReference(MethodReference method, IGenericParameterProvider context)
    {
        if (method.IsDefinition) return method;
        if (method is GenericInstanceMethod instance) return Instance(instance, new GenericInstanceMethod(ImportReference(instance.ElementMethod, context)));
        var declaring = Import(method.DeclaringType);
        if (declaring is TypeDefinition definition) return MetadataResolver.GetMethod(definition.Methods, method);
        var reference = new MethodReference(method.Name, module.TypeSystem.Void, declaring);
        foreach (var parameter in method.GenericParameters) reference.GenericParameters.Add(new GenericParameter(parameter.Name, reference));
        return Signature(method, reference);
    }

    /// Replaces what the types of a module refer to by what the program has in its place.
    public void Replace(ModuleDefinition old)
    {
        Attributes(old, new[] { old.Assembly });
        foreach (var type in old.GetTypes())
        {
            Attributes(type, type.Fields, type.Properties, type.Events, type.Interfaces, type.GenericParameters);
            type.BaseType = Import(type.BaseType);
            foreach (var item in type.Interfaces) item.InterfaceType = Import(item.InterfaceType);
            foreach (var field in type.Fields) field.FieldType = Import(field.FieldType);
            foreach (var property in type.Properties) property.PropertyType = Import(property.PropertyType);
            foreach (var item in type.Events) item.EventType = Import(item.EventType);
            foreach (var method in type.Methods) Replace(method);
        }
    }

    void Replace(MethodDefinition method)
    {
        Attributes(method, new[] { method.MethodReturnType }, method.Parameters, method.GenericParameters);
        method.ReturnType = Import(method.ReturnType);
        foreach (var parameter in method.Parameters) parameter.ParameterType = Import(parameter.ParameterType);
        for (int i = 0; i < method.Overrides.Count; i++) method.Overrides[i] = ImportReference(method.Overrides[i], null);
        if (method.HasPInvokeInfo && !module.ModuleReferences.Contains(method.PInvokeInfo.Module)) module.ModuleReferences.Add(method.PInvokeInfo.Module);
        if (!method.HasBody) return;
        foreach (var local in method.Body.Variables) local.VariableType = Import(local.VariableType);
        foreach (var handler in method.Body.ExceptionHandlers) handler.CatchType = Import(handler.CatchType);
        foreach (var instruction in method.Body.Instructions)
            if (instruction.Operand is TypeReference type) instruction.Operand = Import(type);
            else if (instruction.Operand is FieldReference field) instruction.Operand = ImportReference(field, null);
            else if (instruction.Operand is MethodReference called) instruction.Operand = ImportReference(called, null);
            else if (instruction.Operand is CallSite call) instruction.Operand = Signature(call, new CallSite(call.ReturnType));
    }

    // The attributes of an item and its parts, and the constraints of type parameters.
    void Attributes(ICustomAttributeProvider item, params IEnumerable<ICustomAttributeProvider>[] parts)
    {
        foreach (var part in parts.SelectMany(some => some).Concat(new[] { item }))
        {
            for (int i = 0; i < part.CustomAttributes.Count; i++)
                part.CustomAttributes[i] = new CustomAttribute(ImportReference(part.CustomAttributes[i].Constructor, null), part.CustomAttributes[i].GetBlob());
            if (part is GenericParameter parameter)
                foreach (var constraint in parameter.Constraints) constraint.ConstraintType = Import(constraint.ConstraintType);
        }
    }
}
