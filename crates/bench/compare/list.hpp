// A list that grows by one test, in room that its maker has on the stack until that is full.
#pragma once
#include <cstdlib>
#include <cstring>
#include <utility>

template <class T, std::size_t SIZE>
struct Room {
    alignas(T) unsigned char bytes[SIZE * sizeof(T)];

    T* first() { return reinterpret_cast<T*>(bytes); }
};

// What it holds is copied as bytes when it grows.
template <class T>
class List {
public:
    template <std::size_t SIZE>
    explicit List(Room<T, SIZE>& room) : room_(room.first()), first_(room_), end_(room_), limit_(room_ + SIZE) {}

    List(List&& other) : room_(other.room_), first_(other.first_), end_(other.end_), limit_(other.limit_) {
        other.first_ = other.room_;
    }

    List(const List&) = delete;

    ~List() {
        if (first_ != room_) std::free(first_);
    }

    void push(const T& item) {
        if (__builtin_expect(end_ == limit_, false)) grow();
        *end_++ = item;
    }

    T pop() { return *--end_; }
    void clear() { end_ = first_; }
    bool empty() const { return end_ == first_; }
    const T* begin() const { return first_; }
    const T* end() const { return end_; }

private:
    // By values alone: where its own address were known to others, each push would go to memory.
    void grow() {
        const std::size_t size = end_ - first_;
        first_ = grown(first_, size, first_ != room_);
        end_ = first_ + size;
        limit_ = first_ + 2 * size;
    }

    [[gnu::noinline, gnu::cold]] static T* grown(T* items, std::size_t size, bool own) {
        T* const more = static_cast<T*>(std::malloc(2 * size * sizeof(T)));
        if (!more) std::abort();
        std::memcpy(more, items, size * sizeof(T));
        if (own) std::free(items);
        return more;
    }

    T* room_;
    T *first_, *end_, *limit_;
};
