using System;
using System.Collections.Generic;
using System.IO;
using System.Threading.Tasks;
class AsyncIter {
  static async Task<int> One(int n) { await Task.Yield(); int k = n + 1; await Task.Delay(0); return k; }
  static async Task Two(string[] a) {
    foreach (var s in a) {
      int len = s.Length;
      try { await One(len); if (len > 3) { string big = s + s; await Task.FromResult(big); Console.WriteLine(big); } }
      catch (IOException e) when (e.Message.Length > 2) { var m = e.Message; await Task.Yield(); Console.WriteLine(m); }
      finally { await Task.Yield(); var fin = len; Console.WriteLine(fin); }
    }
  }
  static async void Fire() { await One(1); }
  static IEnumerable<int> Count(int n) {
    for (int i = 0; i < n; i++) { int sq = i * i; yield return sq; if (sq > 100) { string note = "big"; Console.WriteLine(note); yield break; } }
    try { yield return -1; int after = 3; yield return after; } finally { Console.WriteLine("done"); }
  }
  static IEnumerable<T> Gen<T>(T a, T b) where T : class { T c = a ?? b; yield return c; Func<T> f = () => { T q = c; return q; }; yield return f(); }
  IEnumerator<string> Inst() { const int K = 5; const string S = "x"; for (int i = 0; i < K; i++) { var t = S + i; yield return t; } }
  static async Task Lam() {
    int outer = 5;
    Func<int, Task<int>> f = async x => { int inner = x + outer; await Task.Yield(); { const long C = 77; return inner + (int)C; } };
    Console.WriteLine(await f(2) + await f(3));
    async Task<int> Local(int z) { var zz = z * 2; await Task.Yield(); return zz + outer; }
    Console.WriteLine(await Local(1));
  }
  static async ValueTask2 Vt() { await Task.Yield(); }
  static async Task<int> Main(string[] args) {
    await Two(new[] { "a", "four", "hello" }); foreach (var i in Count(3)) Console.WriteLine(i);
    foreach (var g in Gen("p", "q")) Console.WriteLine(g);
    await Lam(); Fire(); await Task.Delay(20); return 0;
  }
}
// own task-like type
[System.Runtime.CompilerServices.AsyncMethodBuilder(typeof(VtB))] struct ValueTask2 { }
struct VtB {
  public static VtB Create() => default; public ValueTask2 Task => default; public void SetException(Exception e) { } public void SetResult() { }
  public void SetStateMachine(System.Runtime.CompilerServices.IAsyncStateMachine s) { }
  public void Start<T>(ref T s) where T : System.Runtime.CompilerServices.IAsyncStateMachine { s.MoveNext(); }
  public void AwaitOnCompleted<A, S>(ref A a, ref S s) where A : System.Runtime.CompilerServices.INotifyCompletion where S : System.Runtime.CompilerServices.IAsyncStateMachine { }
  public void AwaitUnsafeOnCompleted<A, S>(ref A a, ref S s) where A : System.Runtime.CompilerServices.ICriticalNotifyCompletion where S : System.Runtime.CompilerServices.IAsyncStateMachine { }
}
