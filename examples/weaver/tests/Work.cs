// The program that scripts/check-weaver weaves: each part throws, and Main prints the stack trace.
using System;
using System.Collections.Generic;
using System.Threading.Tasks;

class Box<T>
{
    readonly T item;
    public Box(T item) { this.item = item; }
    public R Map<R>(Func<T, R> change)
    {
        List<R> made = new List<R>();
        made.Add(change(item));
        return made[0];
    }
}

[Obsolete] class Unused
{
    public static int Twice(int number) { int twice = 2 * number; return twice; }
}

static class Work
{
    [Obsolete] static int Unneeded(int number)
    {
        int sum = 0;
        for (int i = 0; i < number; i++) sum += i;
        return sum;
    }

    static IEnumerable<int> Down(int from)
    {
        for (int i = from; i >= 0; i--)
        {
            yield return 12 / i;
        }
    }

    static int Sum(IEnumerable<int> numbers)
    {
        int sum = 0;
        foreach (int number in numbers) sum += number;
        return sum;
    }

    static int Closure(int divisor)
    {
        Func<int, int> divide = number => number / divisor;
        int sum = 0;
        foreach (int number in new[] { 1, 2 })
            sum += divide(number);
        return sum;
    }

    static void Rethrow(string text)
    {
        try
        {
            int length = text.Length;
            Console.WriteLine(length);
        }
        catch (NullReferenceException fault) when (fault.Message != null)
        {
            Console.WriteLine("caught");
            throw;
        }
        finally
        {
            string last = "finally";
            Console.WriteLine(last);
        }
    }

    static async Task<int> Later(int depth)
    {
        await Task.Yield();
        if (depth == 0) throw new InvalidOperationException("deep");
        int result = await Later(depth - 1);
        return result + 1;
    }

    static int Choose(int way)
    {
        int found;
        switch (way)
        {
            case 0: found = 10; break;
            case 1: found = 20; break;
            case 2: throw new ArgumentException("way 2");
            default: found = 30; break;
        }
        return found;
    }

    static void Try(string name, Action part)
    {
        Console.WriteLine("== " + name);
        try { part(); }
        catch (Exception fault) { Console.WriteLine(fault); }
    }

    static void Main()
    {
        Try("iterator", () => Sum(Down(3)));
        Try("closure", () => Closure(0));
        Try("generic", () => new Box<string>(null).Map(text => text.Length));
        Try("rethrown", () => Rethrow(null));
        Try("async", () => Later(2).Wait());
        Try("switch", () => { Choose(1); Choose(2); });
    }
}
