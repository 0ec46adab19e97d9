// What the layers for C++17 of the queue and of the receiver share: spans, and answers that must be looked at.
#ifndef DSQ_DESQARIY_HOST_HPP
#define DSQ_DESQARIY_HOST_HPP

#include <cstddef>
#include <cstdint>
#include <cstdlib>
#include <optional>
#include <type_traits>
#include <utility>

namespace desqariy {

// Elements that somebody else owns. An empty one points to something all the same: the functions take no null.
template <class T>
class Span {
  public:
    constexpr Span() = default;
    constexpr Span(T *data, std::size_t size) : data_(data), size_(size) {}
    template <class C, class = std::enable_if_t<std::is_convertible_v<decltype(std::declval<C &>().data()), T *>>>
    constexpr Span(C &elements) : data_(elements.data()), size_(elements.size()) {}
    template <std::size_t N>
    constexpr Span(T (&elements)[N]) : data_(elements), size_(N) {}

    constexpr T *data() const { return size_ ? data_ : &nothing_; }
    constexpr std::size_t size() const { return size_; }
    constexpr bool empty() const { return size_ == 0; }
    constexpr T &operator[](std::size_t i) const { return data_[i]; }
    constexpr T *begin() const { return data(); }
    constexpr T *end() const { return data() + size_; }

  private:
    inline static std::remove_const_t<T> nothing_{};
    T *data_ = nullptr;
    std::size_t size_ = 0;
};

using Bytes = Span<const std::uint8_t>;
using Buffer = Span<std::uint8_t>;

// What a call answers that can be refused: 0, which is accepted, and a value, or why not.
template <class T, class Refusal>
class [[nodiscard]] Result {
  public:
    Result(T value) : value_(std::move(value)) {}
    Result(Refusal refusal) : refusal_(refusal) {}

    explicit operator bool() const { return refusal_ == Refusal{}; }
    Refusal refusal() const { return refusal_; }
    // Only of an accepted call.
    T &operator*() { return *value_; }
    T *operator->() { return &*value_; }

  private:
    Refusal refusal_ = Refusal{};
    std::optional<T> value_;
};

template <class Refusal>
struct [[nodiscard]] Done {
    Refusal refusal;
    explicit operator bool() const { return refusal == Refusal{}; }
    // Where 16 alone is left: it is proved that no queue and no receiver gets there.
    void never_refused() const
    {
        if (!*this)
            std::abort();
    }
};

} // namespace desqariy

#endif
