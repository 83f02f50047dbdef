// The plain twin of `path_server talk`, and the client that drives either of them through pipes and waits for each reply.
// Build: g++ -O3 -march=x86-64-v2 -o bench/build/talk bench/talk.cpp
// Run: bench/build/talk map SIDE                    prints a map of that side, a seventh of it blocked
//      bench/build/talk answer MAP rows|table       answers over standard input, from rows as ours or from a table
//      bench/build/talk drive MAP TURNS WORD.. [-- WORD..]..
//          starts these programs, asks each the same 1,024 queries in turn, TURNS times, and prints of each the medians of
//          queries a second and of the processor time that it takes for one
#include "session.hpp"
#include <chrono>
#include <fcntl.h>
#include <sys/wait.h>

// The processor time that a process has taken so far, in nanoseconds.
static double taken_by(pid_t process) {
    double time = 0;
    std::ifstream("/proc/" + std::to_string(process) + "/schedstat") >> time;
    return time;
}

// A program that was started, and what was measured of it.
struct Side {
    pid_t process;
    Client client;
    std::vector<double> rates, times;
};

static Side start(char **words) {
    int there[2], back[2];
    if (pipe2(there, O_CLOEXEC) || pipe2(back, O_CLOEXEC)) exit(1);
    pid_t child = fork();
    if (child == 0) {
        dup2(there[0], 0);
        dup2(back[1], 1);
        execvp(words[0], words);
        _exit(127);
    }
    close(there[0]);
    close(back[1]);
    return Side{child, Client{back[0], there[1], {}}, {}, {}};
}

static int drive(const char *name, int turns, char **words) {
    Grid grid = read_map(name);
    std::vector<Side> sides;
    for (char **word = words; *word;) {
        char **end = word;
        while (*end && strcmp(*end, "--")) end++;
        bool more = *end;
        *end = nullptr;
        sides.push_back(start(word));
        word = more ? end + 1 : end;
    }
    uint64_t first = 0;
    std::vector<Query> queries;
    for (Side &side : sides) {
        uint64_t moves = 0, sum = 0;
        queries = choose(grid, side.client, moves, sum);
        if (&side == &sides[0]) {
            first = sum;
            printf("%.1f moves a path\n", double(moves) / queries.size());
        }
        if (sum != first) {
            fprintf(stderr, "talk: the replies differ\n");
            return 1;
        }
    }
    for (int turn = 0; turn < turns; turn++)
        for (Side &side : sides) {
            double before = taken_by(side.process);
            auto begin = std::chrono::steady_clock::now();
            for (const Query &query : queries) side.client.ask(query);
            double passed = std::chrono::duration<double>(std::chrono::steady_clock::now() - begin).count();
            side.rates.push_back(queries.size() / passed);
            side.times.push_back((taken_by(side.process) - before) / queries.size());
        }
    for (Side &side : sides) {
        printf("%.0f queries a second, %.0f ns of its processor a query\n", median(side.rates), median(side.times));
        const uint8_t bye[] = {0, 1, 5};
        if (write_all(side.client.out, bye, sizeof bye)) waitpid(side.process, nullptr, 0);
    }
    return 0;
}

int main(int argc, char **argv) {
    std::string what = argc > 1 ? argv[1] : "";
    if (what == "map" && argc == 3) return print_map(atoi(argv[2]));
    if (what == "answer" && argc == 4 && !strcmp(argv[3], "rows")) return answer(Packed(read_map(argv[2])), true, 0, 1);
    if (what == "answer" && argc == 4) return answer(Table(read_map(argv[2])), false, 0, 1);
    if (what == "drive" && argc >= 5) return drive(argv[2], atoi(argv[3]), argv + 4);
    fprintf(stderr, "usage: talk map SIDE | answer MAP rows|table | drive MAP TURNS WORD.. [-- WORD..]..\n");
    return 2;
}
