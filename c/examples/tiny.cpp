// tiny: a log in memory, its stores carried to a device that is memory too; what it logged is read from the device.
#include <algorithm>
#include <iostream>
#include <liftlog_medium.h>
#include <stdexcept>
#include <string>
#include <vector>

static std::vector<uint8_t> image(LIFTLOG_IMAGE(64, 2)), kept;

static liftlog_state take(liftlog_answer a)
{
    auto put = [](void *, size_t place, const uint8_t *bytes, size_t count) { std::copy_n(bytes, count, &kept[place]); return 0; };
    auto zero = [](void *, size_t place, size_t count) { std::fill_n(&kept[place], count, 0); return 0; };
    const liftlog_device device{nullptr, 1, put, zero, put};
    if (a.number != LIFTLOG_DONE || liftlog_carry(&device, image.data(), a.store) != 0)
        throw std::runtime_error("refused");
    return a.state;
}

int main()
{
    const std::string line = "41 lost phase";
    take(liftlog_create(image.data(), image.size(), 64, 2));
    kept = image;
    liftlog_state state = take(liftlog_open(image.data(), image.size()));
    state = take(liftlog_wipe(state, image.data(), image.size()));
    state = take(liftlog_mark(state, image.data(), image.size()));
    state = take(liftlog_append(state, image.data(), image.size(), reinterpret_cast<const uint8_t *>(line.data()), line.size()));
    liftlog_reading r = liftlog_read(state, kept.data(), kept.size(), 1);
    std::cout << std::string(kept.begin() + r.place, kept.begin() + r.place + r.length) << '\n';
    return r.number;
}
