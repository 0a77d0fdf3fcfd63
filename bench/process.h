// A program run to its end: the processor time that it took, and what it printed.
#pragma once
#include <cstdlib>
#include <fcntl.h>
#include <fstream>
#include <spawn.h>
#include <sstream>
#include <string>
#include <sys/resource.h>
#include <sys/wait.h>
#include <unistd.h>
#include <vector>

// Microseconds of the processor, for a program with its arguments that prints to a file; what it prints to standard error is thrown away.
inline double processor_time(std::vector<std::string> words, const std::string &to) {
    std::vector<char *> arguments;
    for (std::string &w : words) arguments.push_back(&w[0]);
    arguments.push_back(nullptr);
    posix_spawn_file_actions_t actions;
    posix_spawn_file_actions_init(&actions);
    posix_spawn_file_actions_addopen(&actions, 1, to.c_str(), O_WRONLY | O_CREAT | O_TRUNC, 0644);
    posix_spawn_file_actions_addopen(&actions, 2, "/dev/null", O_WRONLY, 0);
    pid_t child;
    int status;
    rusage use;
    if (posix_spawnp(&child, arguments[0], &actions, nullptr, arguments.data(), environ) || wait4(child, &status, 0, &use) != child) abort();
    posix_spawn_file_actions_destroy(&actions);
    return double(use.ru_utime.tv_sec + use.ru_stime.tv_sec) * 1e6 + double(use.ru_utime.tv_usec + use.ru_stime.tv_usec);
}

inline std::string contents(const std::string &file) {
    std::stringstream text;
    text << std::ifstream(file).rdbuf();
    return text.str();
}
