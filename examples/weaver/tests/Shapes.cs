// The library that scripts/checks/check-weaver merges with the program in Draw.cs.
using System;
using System.Collections.Generic;
using System.Threading.Tasks;

namespace Shapes
{
    public enum Color { Red = 3, Green = 512 }

    [AttributeUsage(AttributeTargets.All)]
    public sealed class MarkAttribute : Attribute
    {
        public readonly string Text;
        public MarkAttribute(string text) { Text = text; }
    }

    public interface IArea
    {
        int Area(int scale);
    }

    public struct Point
    {
        public int X, Y;
        public override string ToString() { return "(" + X + " " + Y + ")"; }
    }

    public struct Pair<T>
    {
        public T First, Second;
        public R Both<R>(Func<T, T, R> join) where R : class
        {
            R joined = join(First, Second);
            return joined;
        }
        public struct Swapped<U>
        {
            public U Other;
            public override string ToString()
            {
                string text = "swapped " + typeof(T).Name + " " + Other.ToString();
                return text;
            }
        }
    }

    [Mark("shape")]
    public abstract class Shape : IArea
    {
        public event Action<Shape> Drawn;
        public Color Color { get; set; }
        public abstract int Area(int scale);
        public void Draw(params Point[] corners)
        {
            foreach (Point corner in corners)
                Console.WriteLine(corner);
            if (Drawn != null) Drawn(this);
        }
    }

    public sealed class Square : Shape
    {
        readonly int side;
        public Square(int side) { this.side = side; }
        public override int Area(int scale)
        {
            int area = side * side;
            return area / scale;
        }
    }

    // The program has a type of this name too.
    static class Helper
    {
        static readonly int[] sizes = { 1, 2, 3, 0, 5, 6, 7, 8 };
        public static int Size(int index) { return sizes[index]; }
    }

    public static class Tools
    {
        public static IEnumerable<int> Parts(int count)
        {
            for (int i = 0; i < count; i++)
            {
                int size = Helper.Size(i);
                yield return 12 / size;
            }
        }

        public static async Task<int> Later(Shape shape, int depth)
        {
            await Task.Yield();
            if (depth == 0) return shape.Area(0);
            int result = await Later(shape, depth - 1);
            return result + 1;
        }

        [Mark("each")]
        public static void Each<T>(IEnumerable<T> items, Action<T> act)
        {
            foreach (T item in items)
            {
                T copy = item;
                act(copy);
            }
        }
    }
}
