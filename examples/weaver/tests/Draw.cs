// The program that uses the library in Shapes.cs, with which scripts/checks/check-weaver merges it: each part throws, in one of the two
// or through both, and Main prints the stack trace.
using System;
using System.Collections.Generic;
using System.Linq;
using System.Threading.Tasks;
using Shapes;

static class Helper
{
    static readonly int[] depths = { 2, 1, 0, 3, 5, 8, 13, 21 };
    public static int Depth(int index) { return depths[index]; }
}

[Mark("circle")]
class Circle : Shape
{
    [Mark("radius")] public int Radius;
    public override int Area(int scale)
    {
        int area = 3 * Radius * Radius;
        return area / scale;
    }
}

static class Draw
{
    static readonly Dictionary<Color, Pair<Shape>> shapes = new Dictionary<Color, Pair<Shape>>();

    static void Joined()
    {
        Pair<string> pair = new Pair<string> { First = "a", Second = null };
        string both = pair.Both((first, second) => first + second.Length);
        Console.WriteLine(both);
    }

    static void Drawn(Shape shape)
    {
        shape.Drawn += drawn => { Point[] corners = null; drawn.Draw(corners); };
        shape.Draw(new Point { X = 1 }, new Point { Y = 2 });
    }

    static int Areas(IEnumerable<IArea> areas)
    {
        int sum = 0;
        foreach (IArea area in areas) sum += area.Area(1);
        foreach (IArea area in areas) sum += area.Area(0);
        return sum;
    }

    static async Task<int> Later()
    {
        Color color = Color.Green;
        Pair<Shape> pair = shapes[color];
        int first = await Tools.Later(pair.First, Helper.Depth(0));
        return first + 1;
    }

    static void Try(string name, Action part)
    {
        Console.WriteLine("== " + name);
        try { part(); }
        catch (Exception fault) { Console.WriteLine(fault); }
    }

    static void Main()
    {
        Circle circle = new Circle { Radius = 2, Color = Color.Red };
        shapes[Color.Green] = new Pair<Shape> { First = new Square(3), Second = circle };
        Console.WriteLine(new Pair<Color>.Swapped<Point>());
        Console.WriteLine(string.Join(" ", new Shape[] { circle }.Select(shape => (MarkAttribute)shape.GetType().GetCustomAttributes(false)[0])
            .Select(mark => mark.Text)));
        Try("iterator", () => Console.WriteLine(Tools.Parts(8).Sum()));
        Try("generic", Joined);
        Try("event", () => Drawn(circle));
        Try("override", () => Areas(shapes.Values.Select(pair => pair.Second)));
        Try("callback", () => Tools.Each(new[] { Color.Red, (Color)0 }, color => Console.WriteLine(12 / (int)color)));
        Try("async", () => Later().Wait());
    }
}
