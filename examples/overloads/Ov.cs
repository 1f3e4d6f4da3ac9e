using System;
using System.Collections.Generic;
using System.Threading.Tasks;

namespace Over {
  public class Box<T> {
    public class Inner<U> {
      public void Put<V>(T one, U two, V three, T[,] more) { Load.Go("x"); }
    }
  }

  public static class Load {
    public enum Kind { A }

    public static void Go(int x) { throw new Exception("int"); }
    public static void Go(string x) { throw new Exception("string"); }
    public static void Go(object x) { throw new Exception("object"); }
    public static void Go(int[] x) { throw new Exception("int[]"); }
    public static void Go(int[,] x) { throw new Exception("int[,]"); }
    public static void Go(int[][] x) { throw new Exception("int[][]"); }
    public static void Go(ref int x) { throw new Exception("ref int"); }
    public static void Go(Kind x) { throw new Exception("Kind"); }
    public static void Go(Kind? x) { throw new Exception("Kind?"); }
    public static void Go(List<int> x) { throw new Exception("List<int>"); }
    public static void Go(List<int>[] x) { throw new Exception("List<int>[]"); }
    public static void Go(List<string>[] x) { throw new Exception("List<string>[]"); }

    public static async Task Later(int n) {
      await Task.Yield();
      if (n == 0)
        Go("");
      await Later(n - 1);
    }

    public static async Task Later(string s) {
      await Task.Yield();
      await Later(s.Length);
      Go(s);
    }

    static void Try(Action a) {
      try { a(); } catch (Exception e) { Console.WriteLine(e.GetBaseException()); }
    }

    public static void Main() {
      int n = 1;
      Try(() => Go(1));
      Try(() => Go("s"));
      Try(() => Go(new object()));
      Try(() => Go(new int[1]));
      Try(() => Go(new int[1, 1]));
      Try(() => Go(new int[1][]));
      Try(() => Go(ref n));
      Try(() => Go(Kind.A));
      Try(() => Go((Kind?)Kind.A));
      Try(() => Go(new List<int>()));
      Try(() => Go(new List<int>[1]));
      Try(() => Go(new List<string>[1]));
      Try(() => new Box<string>.Inner<int>().Put<long>("", 1, 2, null));
      Try(() => Later("s").Wait());
    }
  }
}
