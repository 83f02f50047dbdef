// The plain twin of `path_server serve`, with a thread a connection, and the clients that drive either of them over TCP.
// Build: g++ -O3 -march=x86-64-v2 -pthread -o bench/build/serve bench/serve.cpp
// Run: bench/build/serve map SIDE
//          prints a map of that side, a seventh of it blocked
//      bench/build/serve answer MAP PORT rows|table
//          answers queries at that port of 127.0.0.1 until it is killed, from rows as ours or from a table
//      bench/build/serve drive CLIENTS AHEAD TURNS MAP PORT PROCESS [PORT PROCESS]..
//          asks each of these servers in turn, TURNS times for half a second: so many clients, of which each sends AHEAD
//          queries and waits for all replies. Prints of each the medians of queries a second, and of the nanoseconds of
//          its processors that a query takes
//      bench/build/serve build TURNS MAP PORT
//          one client that waits asks a server of ours while a build runs, and as long without one, TURNS times. Prints the
//          median seconds of a build, and those of queries a second with a build and without
#include "session.hpp"
#include <arpa/inet.h>
#include <atomic>
#include <chrono>
#include <dirent.h>
#include <netinet/tcp.h>
#include <sys/socket.h>
#include <thread>

using Clock = std::chrono::steady_clock;

static double seconds_since(Clock::time_point begin) {
    return std::chrono::duration<double>(Clock::now() - begin).count();
}

// ---- the twin

static sockaddr_in address(const char *port) {
    sockaddr_in at{};
    at.sin_family = AF_INET;
    at.sin_port = htons(uint16_t(atoi(port)));
    at.sin_addr.s_addr = htonl(INADDR_LOOPBACK);
    return at;
}

static void send_at_once(int link) {
    int yes = 1;
    setsockopt(link, IPPROTO_TCP, TCP_NODELAY, &yes, sizeof yes);
}

template <class Moves> static int serve(const Moves &moves, const char *port, bool twice) {
    int listener = socket(AF_INET, SOCK_STREAM, 0), yes = 1;
    sockaddr_in at = address(port);
    setsockopt(listener, SOL_SOCKET, SO_REUSEADDR, &yes, sizeof yes);
    if (bind(listener, reinterpret_cast<sockaddr *>(&at), sizeof at) || listen(listener, 128)) return 5;
    printf("serving %s\n", port);
    fflush(stdout);
    for (int link; (link = accept(listener, nullptr, nullptr)) >= 0;)
        std::thread([&moves, twice, link] {
            send_at_once(link);
            answer(moves, twice, link, link);
            close(link);
        }).detach();
    return 5;
}

// ---- clients

static int connect_to(const char *port) {
    int link = socket(AF_INET, SOCK_STREAM, 0);
    sockaddr_in at = address(port);
    if (connect(link, reinterpret_cast<sockaddr *>(&at), sizeof at)) {
        fprintf(stderr, "serve: nobody listens at port %s\n", port);
        exit(5);
    }
    send_at_once(link);
    return link;
}

// A connection that reads as much as is there.
struct Asker {
    int link;
    std::vector<uint8_t> room;
    uint32_t version = 0;

    explicit Asker(const char *port) : link(connect_to(port)), room(1 << 16) {}
    ~Asker() { close(link); }
    Asker(const Asker &) = delete;

    // Asks queries that have paths, and waits for all replies; the last one's version is kept.
    void ask(const Query *queries, size_t count) {
        if (!write_all(link, queries[0].frame, count * sizeof(Query))) exit(6);
        for (size_t have = 0, at = 0; count > 0;) {
            ssize_t got = read(link, &room[have], room.size() - have);
            if (got <= 0) exit(9);
            have += got;
            while (count > 0 && have - at >= 9 && have - at >= 4 + get32(&room[at])) {
                if (room[at + 4] != 0x81) exit(9);
                version = get32(&room[at + 5]);
                at += 4 + get32(&room[at]);
                count--;
            }
        }
    }
};

// The processor time that the threads of a process have taken so far, in nanoseconds.
static double taken_by(const std::string &process) {
    double sum = 0, time;
    std::string tasks = "/proc/" + process + "/task/";
    DIR *folder = opendir(tasks.c_str());
    if (!folder) exit(1);
    while (dirent *task = readdir(folder))
        if (std::ifstream(tasks + task->d_name + "/schedstat") >> time) sum += time;
    closedir(folder);
    return sum;
}

// The queries of all measurements. Each server has to answer them alike.
static std::vector<Query> queries_for(const Grid &grid, const std::vector<const char *> &ports) {
    std::vector<Query> queries;
    uint64_t first = 0;
    for (size_t i = 0; i < ports.size(); i++) {
        uint64_t moves = 0, sum = 0;
        int link = connect_to(ports[i]);
        Client client{link, link, {}};
        queries = choose(grid, client, moves, sum);
        close(link);
        if (i == 0) first = sum;
        if (sum != first) {
            fprintf(stderr, "serve: the replies differ\n");
            exit(1);
        }
    }
    return queries;
}

// How many queries clients ask a server in half a second, and what these take of its processors: each a second, each a
// query.
static std::pair<double, double> rate_of(const std::vector<Query> &queries, std::vector<std::unique_ptr<Asker>> &askers,
                                         size_t ahead, const char *process) {
    std::atomic<uint64_t> asked{0};
    double before = taken_by(process);
    auto begin = Clock::now();
    std::vector<std::thread> threads;
    for (size_t i = 0; i < askers.size(); i++)
        threads.emplace_back([&, i] {
            uint64_t count = 0;
            for (size_t at = i * queries.size() / askers.size(); seconds_since(begin) < 0.5; count += ahead) {
                if (at + ahead > queries.size()) at = 0;
                askers[i]->ask(&queries[at], ahead);
                at += ahead;
            }
            asked += count;
        });
    for (std::thread &thread : threads) thread.join();
    return {asked / seconds_since(begin), (taken_by(process) - before) / asked};
}

static int drive(size_t clients, size_t ahead, int turns, const char *name, char **words) {
    struct Side {
        const char *port, *process;
        std::vector<std::unique_ptr<Asker>> askers;
        std::vector<double> rates, times;
    };
    std::vector<Side> sides;
    std::vector<const char *> ports;
    for (; *words; words += 2) {
        sides.push_back(Side{words[0], words[1], {}, {}, {}});
        ports.push_back(words[0]);
    }
    std::vector<Query> queries = queries_for(read_map(name), ports);
    for (Side &side : sides)
        for (size_t i = 0; i < clients; i++) side.askers.push_back(std::make_unique<Asker>(side.port));
    for (int turn = 0; turn < turns; turn++)
        for (Side &side : sides) {
            auto [rate, time] = rate_of(queries, side.askers, ahead, side.process);
            side.rates.push_back(rate);
            side.times.push_back(time);
        }
    for (Side &side : sides) printf("%.0f %.0f\n", median(side.rates), median(side.times));
    return 0;
}

// ---- queries beside a build

// Blocks or frees a cell, and says how many edits were accepted then.
static uint32_t change(Client &client, Cell cell, bool free) {
    const uint8_t frame[] = {0, 6, 2, uint8_t(cell.x >> 8), uint8_t(cell.x), uint8_t(cell.y >> 8), uint8_t(cell.y), free};
    uint8_t reply[9];
    if (!write_all(client.out, frame, sizeof frame) || !read_exactly(client.in, reply, 9) || reply[4] != 0x84) exit(9);
    return get32(&reply[5]);
}

// A passable cell at which no query ends.
static Cell other_cell(const Grid &grid, const std::vector<Query> &queries) {
    for (uint16_t y = 0; y < grid.height; y++)
        for (uint16_t x = 0; x < grid.width; x++) {
            const uint8_t at[] = {uint8_t(x >> 8), uint8_t(x), uint8_t(y >> 8), uint8_t(y)};
            bool is_end = std::any_of(queries.begin(), queries.end(), [&](const Query &query) {
                return !memcmp(&query.frame[3], at, 4) || !memcmp(&query.frame[7], at, 4);
            });
            if (grid.passable[y * grid.width + x] && !is_end) return Cell{x, y};
        }
    exit(1);
}

static int beside_builds(int turns, const char *name, const char *port) {
    Grid grid = read_map(name);
    std::vector<Query> queries = queries_for(grid, {port});
    Cell cell = other_cell(grid, queries);
    int link = connect_to(port);
    Client editor{link, link, {}};
    Asker asker(port);
    std::vector<double> spans, with, without;
    for (int turn = 0; turn < turns; turn++) {
        uint32_t edit = change(editor, cell, turn % 2), count = 0;
        auto begin = Clock::now();
        for (; asker.version < edit; count++) asker.ask(&queries[count % queries.size()], 1);
        double span = seconds_since(begin);
        spans.push_back(span);
        with.push_back(count / span);
        begin = Clock::now();
        for (count = 0; seconds_since(begin) < span; count++) asker.ask(&queries[count % queries.size()], 1);
        without.push_back(count / seconds_since(begin));
    }
    printf("%.2f\n%.0f\n%.0f\n", median(spans), median(with), median(without));
    return 0;
}

int main(int argc, char **argv) {
    std::string what = argc > 1 ? argv[1] : "";
    if (what == "map" && argc == 3) return print_map(atoi(argv[2]));
    if (what == "answer" && argc == 5 && !strcmp(argv[4], "rows")) return serve(Packed(read_map(argv[2])), argv[3], true);
    if (what == "answer" && argc == 5) return serve(Table(read_map(argv[2])), argv[3], false);
    if (what == "drive" && argc >= 8 && argc % 2 == 0)
        return drive(atoi(argv[2]), atoi(argv[3]), atoi(argv[4]), argv[5], argv + 6);
    if (what == "build" && argc == 5) return beside_builds(atoi(argv[2]), argv[3], argv[4]);
    fprintf(stderr, "usage: serve map SIDE | answer MAP PORT [twice] | drive CLIENTS AHEAD TURNS MAP PORT PROCESS.. | "
                    "build TURNS MAP PORT\n");
    return 2;
}
