// A path in C# 7, for .NET, Mono and Unity. Prints what `./path_server path MAP SX SY GX GY` prints.
//
//   mcs -unsafe -out:path.exe examples/Path.cs
//   LD_LIBRARY_PATH=release/pathdb mono path.exe maps/tutorial.map 2 2 37 17
//
// A game ships libpathdb.so beside its program, in Unity below Assets/Plugins.
using System;
using System.IO;
using System.Runtime.InteropServices;
using System.Text;

[StructLayout(LayoutKind.Sequential)]
public struct Cell
{
    public ushort X;
    public ushort Y;
}

[StructLayout(LayoutKind.Sequential)]
public struct Cost
{
    public uint Straight;
    public uint Diagonal;
}

[StructLayout(LayoutKind.Sequential)]
public struct Baked
{
    public uint Words, Line, X, Y, Byte, Expected, Found;
}

public static unsafe class Pathdb
{
    public const uint Done = 0, Unreachable = 2, TooSmall = 7;
    public const int Longest = 32767, TextRoom = 64;

    [DllImport("pathdb")]
    static extern uint pathdb_check(uint* words, UIntPtr count, uint* part);

    [DllImport("pathdb")]
    static extern uint pathdb_path_cost(uint* words, UIntPtr count, Cell start, Cell goal, Cost* cost);

    [DllImport("pathdb")]
    static extern uint pathdb_path(uint* words, UIntPtr count, Cell start, Cell goal, byte* moves, UIntPtr room,
                                   uint* length);

    [DllImport("pathdb")]
    static extern UIntPtr pathdb_status_text(uint status, byte* text, UIntPtr room);

    [DllImport("pathdb")]
    static extern uint pathdb_bake_text(byte* text, UIntPtr length, uint order, uint* words, UIntPtr room, Baked* baked);

    // The words of the image of a map.
    public static uint[] Bake(byte[] map, uint order)
    {
        var words = new uint[1 << 12];
        for (;;)
        {
            Baked baked;
            uint status;
            fixed (byte* text = map)
            fixed (uint* room = words)
                status = pathdb_bake_text(text, (UIntPtr)map.Length, order, room, (UIntPtr)words.Length, &baked);
            if (status != Done && status != TooSmall) throw new InvalidDataException(Text(status));
            Array.Resize(ref words, (int)baked.Words);
            if (status == Done) return words;
        }
    }

    // Throws if the words are not an image.
    public static void Check(uint[] words)
    {
        uint part;
        fixed (uint* at = words)
        {
            var status = pathdb_check(at, (UIntPtr)words.Length, &part);
            if (status != Done) throw new InvalidDataException(Text(status));
        }
    }

    // The moves of a shortest path, and its cost; null where no path exists.
    public static byte[] Path(uint[] words, Cell start, Cell goal, out Cost cost)
    {
        var moves = new byte[Longest];
        uint length = 0, status;
        Cost found;
        fixed (uint* at = words)
        fixed (byte* room = moves)
        {
            status = pathdb_path_cost(at, (UIntPtr)words.Length, start, goal, &found);
            if (status == Done) status = pathdb_path(at, (UIntPtr)words.Length, start, goal, room, (UIntPtr)Longest, &length);
        }
        cost = found;
        if (status == Unreachable) return null;
        if (status != Done) throw new ArgumentException(Text(status));
        Array.Resize(ref moves, (int)length);
        return moves;
    }

    public static string Text(uint status)
    {
        byte* room = stackalloc byte[TextRoom];
        return Encoding.ASCII.GetString(room, (int)pathdb_status_text(status, room, (UIntPtr)TextRoom));
    }
}

public static class Program
{
    static readonly string[] Names = { "N", "NE", "E", "SE", "S", "SW", "W", "NW" };

    public static void Main(string[] args)
    {
        var words = Pathdb.Bake(File.ReadAllBytes(args[0]), 0);
        Pathdb.Check(words);
        var start = new Cell { X = ushort.Parse(args[1]), Y = ushort.Parse(args[2]) };
        var goal = new Cell { X = ushort.Parse(args[3]), Y = ushort.Parse(args[4]) };
        var moves = Pathdb.Path(words, start, goal, out var cost);
        if (moves == null)
        {
            Console.WriteLine("unreachable");
            return;
        }
        var micro = (ulong)((cost.Straight + Math.Sqrt(2) * cost.Diagonal) * 1e6);
        Console.WriteLine($"cost {cost.Straight} {cost.Diagonal}");
        Console.WriteLine($"length {micro / 1000000}.{micro % 1000000:000000}");
        Console.WriteLine("moves" + string.Concat(Array.ConvertAll(moves, move => " " + Names[move])));
    }
}
