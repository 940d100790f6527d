// Calls the entry in threads with a small stack: half a megabyte has to do for every field, 192 KB for fields of up to 16 by 16.
#include "fields.hpp"
#include <cstdio>
#include <pthread.h>

constexpr uint32_t turn = 1024;

struct Task {
    size_t size;
    bool right = false;
};

static void *call(void *given) {
    Task &task = *static_cast<Task *>(given);
    Random r(task.size);
    size_t n = task.size;
    const Field fields[] = {noise(r, n, n, turn), some_free(r, n, n, turn, 40), volcano(r, n, n, turn, 0.3), smooth(r, n, n, turn)};
    task.right = true;
    for (const Field &f : fields) {
        std::vector<int64_t> room(f.places());
        uint64_t cost = 0;
        task.right = task.right && put_back(f, room.data(), &cost) == 0 && cost_of(f, room.data()) == cost;
    }
    return nullptr;
}

// A stack that is too small ends the program.
static bool fits(size_t size, size_t kilobytes) {
    pthread_attr_t attributes;
    pthread_attr_init(&attributes);
    pthread_attr_setstacksize(&attributes, kilobytes * 1024);
    Task task{size};
    pthread_t thread;
    if (pthread_create(&thread, &attributes, call, &task) != 0) return false;
    pthread_join(thread, nullptr);
    std::printf("stack: %zu wide and high in %zu KB: %s\n", size, kilobytes, task.right ? "right" : "wrong");
    return task.right;
}

int main() {
    bool right = fits(16, 192);
    right = fits(32, 256) && right;
    right = fits(64, 512) && right;
    return right ? 0 : 1;
}
