// The receiving head for a host in C++17: dsr::Receiver owns the arrays that the proved functions of receiver.h are lent, and shows the calls
// with spans and structs. A thin layer: nothing of it is proved or in the library. It throws nothing of its own; a call that can be refused
// answers a Result, which must be looked at. What a call means, and what a host must keep, stands in receiver.h.
#ifndef DSR_RECEIVER_HPP
#define DSR_RECEIVER_HPP

#include "desqariy_host.hpp"
#include "receiver.h"
#include "receiver_names.h"

#include <array>
#include <memory>
#include <vector>

namespace dsr {

using desqariy::Buffer;
using desqariy::Bytes;
using Refusal = ::dsr_refusal;
template <class T>
using Result = desqariy::Result<T, Refusal>;

inline const char *name(Refusal refusal) { return ::dsr_refusal_name(static_cast<unsigned>(refusal)); }
inline const char *text(Refusal refusal) { return ::dsr_refusal_text(static_cast<unsigned>(refusal)); }

struct Options {
    std::size_t store_length = DSR_MAX_STORE;
    bool i_data = false;
    std::uint32_t starting_tsn = 0;
};

enum class Received { repeat, accepted };

// A message with its bytes, at the start of the buffer that was lent.
struct Message {
    std::uint16_t stream_id;
    bool unordered;
    std::uint32_t ppid;
    Bytes payload;
};

class Receiver {
  public:
    // Refusals: 2.
    static Result<Receiver> create(const Options &options)
    {
        Receiver made(options.store_length <= DSR_MAX_STORE ? options.store_length : std::size_t{DSR_MAX_STORE + 1});
        const std::uint32_t number =
            ::dsr_create(made.words(), made.store().data(), made.store().size(), options.i_data, options.starting_tsn);
        if (number != DSR_ACCEPTED)
            return static_cast<Refusal>(number);
        return made;
    }

    // A receiver can be moved; one that was moved from is only destroyed or assigned to. A copy is asked for by name.
    Receiver(Receiver &&) = default;
    Receiver &operator=(Receiver &&) = default;
    Receiver clone() const
    {
        Receiver copy(store_.size());
        *copy.arrays_ = *arrays_;
        copy.store_ = store_;
        return copy;
    }

    // Refusals: 19, 24, 22, 23.
    Result<Received> receive(Bytes chunk)
    {
        const std::uint32_t number = ::dsr_receive(words(), store().data(), store().size(), chunk.data(), chunk.size(), out());
        if (number != DSR_ACCEPTED)
            return static_cast<Refusal>(number);
        return value() ? Received::accepted : Received::repeat;
    }

    // The message that is ready first; none where no message is. Refusals: 10.
    Result<std::optional<Message>> fetch(Buffer buffer)
    {
        const std::uint32_t number = ::dsr_fetch(words(), store().data(), store().size(), buffer.data(), buffer.size(), out());
        if (number != DSR_ACCEPTED)
            return static_cast<Refusal>(number);
        if (value() == 0)
            return std::optional<Message>();
        return std::optional<Message>(Message{static_cast<std::uint16_t>(out()[DSR_OUT_STREAM_ID]), out()[DSR_OUT_UNORDERED] != 0,
                                              static_cast<std::uint32_t>(out()[DSR_OUT_PPID]),
                                              Bytes(buffer.data(), static_cast<std::size_t>(out()[DSR_OUT_LENGTH]))});
    }

    // For a call of receiver.h that is not here.
    std::uint64_t *words() { return arrays_->words.data(); }
    Buffer store() { return store_; }

  private:
    struct Arrays {
        std::array<std::uint64_t, DSR_RECEIVER_WORDS> words{};
        std::array<std::uint64_t, DSR_OUT_WORDS> out{};
    };

    explicit Receiver(std::size_t store_length) : arrays_(std::make_unique<Arrays>()), store_(store_length) {}

    std::uint64_t *out() { return arrays_->out.data(); }
    std::uint64_t value() { return arrays_->out[DSR_OUT_VALUE]; }

    std::unique_ptr<Arrays> arrays_;
    std::vector<std::uint8_t> store_;
};

} // namespace dsr

#endif
