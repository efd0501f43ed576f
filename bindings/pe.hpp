/* pe.hpp: pe.h for C++17 and later: images that keep their section headers, lists for `for`, names as std::string_view. It is made
 * of the calls of pe.h alone, has no state and needs no library of its own. The comments of pe.h say what each call returns.
 *
 *     pe_c::outcome<pe_c::image> image = pe_c::image::parse({data, size});
 *     if (!image)
 *         return fail(image.text());
 *     auto exports = image->exports();
 *     for (const pe_c_export &it : exports)
 *         use(image->text(it.name), it.rva);
 *     if (exports.refused())
 *         return fail(exports.refused().text());
 *
 * Nothing here owns the bytes of a file: they outlive the image and all that comes of it. A list reads by its image, which outlives
 * it and is neither changed nor moved: so the image is a variable, as above. A list of an image that ends with the statement, as
 * `image::parse(..)->exports()`, does not compile.
 *
 * An image owns its section headers and an index of them, and a list the entries of its last call, in std::vector, which throws
 * std::bad_alloc where memory is short. Nothing else throws, unless PE_C_EXCEPTIONS is defined before this header is included: then
 * `outcome::value` throws pe_c::failure. A list that an error ends throws nothing: `refused` says so.
 *
 * Calls of which `image` has no function by name are made through it all the same, by their form:
 *
 *     pe_c::outcome<pe_c_load_config_directory> config = image->ask(pe_c_load_config);
 *     auto leaves = image->list(pe_c_list_resource_leaves, image->ask(pe_c_resource_leaves)); */
#ifndef PE_C_HPP
#define PE_C_HPP

#include "pe.h"

#include <algorithm>
#include <cstddef>
#include <cstdint>
#include <cstdlib>
#include <iterator>
#include <memory>
#include <string_view>
#include <type_traits>
#include <utility>
#include <vector>
#if defined(PE_C_EXCEPTIONS)
#include <stdexcept>
#endif
/* Which says whether there is std::span: MSVC leaves __cplusplus as it was in 1998. */
#if __has_include(<version>)
#include <version>
#endif
#if defined(__cpp_lib_span)
#include <span>
#endif

namespace pe_c {

/* Bytes of a file, or of an image as loaded, which the caller keeps. */
#if defined(__cpp_lib_span)
using bytes = std::span<const std::uint8_t>;
#else
class bytes {
public:
    constexpr bytes() noexcept = default;
    constexpr bytes(const std::uint8_t *data, std::size_t size) noexcept : data_(data), size_(size) {}
    bytes(const std::vector<std::uint8_t> &from) noexcept : data_(from.data()), size_(from.size()) {}
    constexpr const std::uint8_t *data() const noexcept { return data_; }
    constexpr std::size_t size() const noexcept { return size_; }
    constexpr bytes subspan(std::size_t offset, std::size_t size) const noexcept { return {data_ + offset, size}; }

private:
    const std::uint8_t *data_ = nullptr;
    std::size_t size_ = 0;
};
#endif

/* What a call returned, PE_C_DONE and so on. It is true where it is an error: PE_C_NOTHING is none. */
class result {
public:
    constexpr explicit result(std::uint32_t number = PE_C_DONE) noexcept : number_(number) {}
    constexpr std::uint32_t number() const noexcept { return number_; }
    const char *text() const noexcept { return pe_c_message(number_); }
    constexpr explicit operator bool() const noexcept { return number_ != PE_C_DONE && number_ != PE_C_NOTHING; }

private:
    std::uint32_t number_;
};

#if defined(PE_C_EXCEPTIONS)
/* What `outcome::value` throws where there is no value. */
class failure : public std::runtime_error {
public:
    explicit failure(result of) : std::runtime_error(of.text()), of_(of) {}
    std::uint32_t number() const noexcept { return of_.number(); }

private:
    result of_;
};
#endif

class image;

/* A value, or why there is none: an error, or PE_C_NOTHING where the file has nothing of the kind. Without a value * and -> lead to
 * an empty one. */
template <class T> class [[nodiscard]] outcome {
public:
    outcome(T value) : value_(std::move(value)) {}
    outcome(result why) : why_(why) {}
    explicit operator bool() const noexcept { return why_.number() == PE_C_DONE; }
    bool is_nothing() const noexcept { return why_.number() == PE_C_NOTHING; }
    result why() const noexcept { return why_; }
    const char *text() const noexcept { return why_.text(); }
    const T &operator*() const & noexcept { return value_; }
    T operator*() && { return std::move(value_); }
    const T *operator->() const & noexcept { return &value_; }
    const T *operator->() const && noexcept
    {
        static_assert(!std::is_same_v<T, image>, "keep the image in a variable: a list reads by it, and what is named here ends with the statement");
        return &value_;
    }
#if defined(PE_C_EXCEPTIONS)
    const T &value() const
    {
        if (!*this)
            throw failure(why_);
        return value_;
    }
#endif

private:
    T value_{};
    result why_{};
};

/* An argument from which no type is deduced. */
template <class A> struct itself {
    using type = A;
};
template <class A> using same = typename itself<A>::type;

/* Room for runs. Where there is no memory for it, it is empty, and each name is read by itself. Most of it is never touched. */
class runs_room {
public:
    explicit runs_room(std::size_t size) : runs_(static_cast<pe_c_run *>(std::calloc(size, sizeof(pe_c_run)))), size_(size) {}
    pe_c_run *data() const noexcept { return runs_.get(); }
    std::size_t size() const noexcept { return runs_ ? size_ : 0; }

private:
    struct freed {
        void operator()(pe_c_run *it) const noexcept { std::free(it); }
    };
    std::unique_ptr<pe_c_run, freed> runs_;
    std::size_t size_;
};

/* The entries of a list, for one `for`: they are read as it runs, some at a time, and are valid up to the next step. The list ends
 * at its end or at an error, which `refused` returns then. */
template <class Entry, class Call> class [[nodiscard]] entries {
public:
    class iterator {
    public:
        using iterator_category = std::input_iterator_tag;
        using value_type = Entry;
        using difference_type = std::ptrdiff_t;
        using pointer = const Entry *;
        using reference = const Entry &;

        iterator() noexcept = default;
        explicit iterator(entries *of) noexcept : of_(of) {}
        reference operator*() const { return of_->room_[of_->next_]; }
        pointer operator->() const { return &**this; }
        iterator &operator++()
        {
            of_->next_++;
            of_ = of_->is_there() ? of_ : nullptr;
            return *this;
        }
        void operator++(int) { ++*this; }
        bool operator==(const iterator &other) const { return of_ == other.of_; }
        bool operator!=(const iterator &other) const { return of_ != other.of_; }

    private:
        entries *of_ = nullptr;
    };

    /* What lists further entries, up to `most` of a list that has begun. */
    entries(Call call, result begun, std::size_t most) : call_(std::move(call)), why_(begun), most_(most) {}
    iterator begin() { return iterator(is_there() ? this : nullptr); }
    iterator end() { return iterator(nullptr); }
    /* The error that ended the list. PE_C_DONE before its end, and where it ended without one. */
    result refused() const noexcept { return why_ ? why_ : result(); }

private:
    /* Whether there is a next entry, for which a call is made where the entries of the last one are over. Calls take more and more,
     * so that they stay few: each may read a text that is as long as the file. */
    bool is_there()
    {
        if (next_ < count_)
            return true;
        next_ = count_ = 0;
        if (why_.number() != PE_C_DONE)
            return false;
        room_.resize(std::clamp<std::size_t>(4 * taken_, 16, most_));
        std::uint64_t written = 0;
        why_ = result(call_(room_.data(), room_.size(), written));
        count_ = why_.number() == PE_C_DONE ? static_cast<std::size_t>(written) : 0;
        taken_ += count_;
        if (why_.number() == PE_C_DONE && count_ == 0)
            why_ = result(PE_C_NOTHING);
        return count_ > 0;
    }

    Call call_;
    std::vector<Entry> room_;
    std::size_t next_ = 0, count_ = 0, taken_ = 0;
    result why_;
    std::size_t most_;
};

/* An image: its headers and section headers, over bytes that the caller keeps. */
class image {
public:
    image() = default;

    /* The image that has these bytes; in a mode of pe.h. */
    static outcome<image> parse(bytes of, std::uint32_t mode = PE_C_PERMISSIVE)
    {
        image it;
        it.bytes_ = of;
        std::uint32_t number = pe_c_image(of.data(), of.size(), mode, &it.info_);
        if (number == PE_C_DONE) {
            it.sections_.resize(it.info_.number_of_sections);
            number = pe_c_sections(of.data(), of.size(), &it.info_, it.sections_.data(), it.sections_.size());
        }
        if (number == PE_C_DONE)
            number = it.make_index();
        return number == PE_C_DONE ? outcome<image>(std::move(it)) : outcome<image>(result(number));
    }
    /* No image has the bytes of a vector that ends before it. */
    template <class V, class = std::enable_if_t<std::is_same_v<std::remove_const_t<V>, std::vector<std::uint8_t>>>>
    static outcome<image> parse(V &&of, std::uint32_t mode = PE_C_PERMISSIVE) = delete;

    const pe_c_image_info &info() const noexcept { return info_; }
    const std::vector<pe_c_section> &sections() const noexcept { return sections_; }
    bytes file() const noexcept { return bytes_; }

    /* The image as calls of pe.h take it, valid as long as this image is neither changed nor moved. */
    pe_c_view view() const noexcept
    {
        return {bytes_.data(), bytes_.size(), &info_, sections_.data(), sections_.size(), index_.data(), index_.size()};
    }

    /* The bytes of a range of the file. A range that a call returned lies inside of it; of another one there are none. */
    bytes part(const pe_c_range &range) const noexcept
    {
        bool is_inside = range.offset <= bytes_.size() && range.length <= bytes_.size() - range.offset;
        return is_inside ? bytes_.subspan(static_cast<std::size_t>(range.offset), static_cast<std::size_t>(range.length)) : bytes();
    }

    /* The same as text. It is UTF-8 where the comment of its field says so. */
    std::string_view text(const pe_c_range &range) const noexcept
    {
        bytes of = part(range);
        return {reinterpret_cast<const char *>(of.data()), of.size()};
    }

    /* What a call returns of the image; with one argument, as the RVA of pe_c_offset or a record; with two. */
    template <class T> outcome<T> ask(std::uint32_t (*call)(const pe_c_view *, T *)) const
    {
        return answered<T>([&](const pe_c_view &view, T &out) { return call(&view, &out); });
    }
    template <class A, class T> outcome<T> ask(std::uint32_t (*call)(const pe_c_view *, A, T *), same<A> argument) const
    {
        return answered<T>([&](const pe_c_view &view, T &out) { return call(&view, argument, &out); });
    }
    template <class A, class B, class T>
    outcome<T> ask(std::uint32_t (*call)(const pe_c_view *, A, B, T *), same<A> first, same<B> second) const
    {
        return answered<T>([&](const pe_c_view &view, T &out) { return call(&view, first, second, &out); });
    }

    /* The entries of a list by its call, from where a walk stands; none where that is PE_C_NOTHING, and its error where it is one. */
    template <class W, class T, class A>
    auto list(std::uint32_t (*call)(const pe_c_view *, W *, T *, std::size_t, std::uint64_t *), const outcome<A> &walk) const &
    {
        return entries_of<T>(walk, [this, call, at = walk_at<W>(*walk)](T *room, std::size_t size, std::uint64_t &written) mutable {
            pe_c_view of = view();
            return call(&of, &at, room, size, &written);
        });
    }
    /* The same of names, which are read together, so that a hostile file costs little: with runs for two names of each entry that a
     * call takes, and `more` for those that it skips. */
    template <class W, class T, class A>
    auto list(std::uint32_t (*call)(const pe_c_view *, W *, pe_c_run *, std::size_t, T *, std::size_t, std::uint64_t *),
              const outcome<A> &walk, std::size_t more = 0) const &
    {
        return entries_of<T>(walk, [this, call, more, at = walk_at<W>(*walk)](T *room, std::size_t size, std::uint64_t &written) mutable {
            runs_room runs(2 * size + more);
            pe_c_view of = view();
            return call(&of, &at, runs.data(), runs.size(), room, size, &written);
        });
    }
    /* The same of a list that takes the bytes alone; and of the entries of a table, from the first on. */
    template <class W, class T>
    auto list(std::uint32_t (*call)(const std::uint8_t *, std::size_t, W *, T *, std::size_t, std::uint64_t *),
              const outcome<W> &walk) const &
    {
        return entries_of<T>(walk, [this, call, at = *walk](T *room, std::size_t size, std::uint64_t &written) mutable {
            return call(bytes_.data(), bytes_.size(), &at, room, size, &written);
        });
    }
    template <class R, class T>
    auto list(std::uint32_t (*call)(const std::uint8_t *, std::size_t, const R *, std::uint64_t *, T *, std::size_t, std::uint64_t *),
              const outcome<R> &table) const &
    {
        return entries_of<T>(table, [this, call, of = *table, next = std::uint64_t(0)](T *room, std::size_t size,
                                                                                     std::uint64_t &written) mutable {
            return call(bytes_.data(), bytes_.size(), &of, &next, room, size, &written);
        });
    }
    /* The items of a walk by the call of a step, which takes the bytes alone. */
    template <class W, class T>
    auto walk(std::uint32_t (*call)(const std::uint8_t *, std::size_t, W *, T *), const outcome<W> &from) const &
    {
        return entries_of<T>(from, [this, call, at = *from](T *room, std::size_t, std::uint64_t &written) mutable {
            std::uint32_t number = call(bytes_.data(), bytes_.size(), &at, room);
            written = number == PE_C_DONE;
            return number;
        });
    }

    /* The key by which a symbol server files the symbols of the image. */
    outcome<pe_c_key> symbol_key() const { return ask(pe_c_symbol_key); }
    outcome<std::uint64_t> offset(std::uint32_t rva) const { return ask(pe_c_offset, rva); }
    auto debug_entries() const & { return walk(pe_c_next_debug_entry, ask(pe_c_debug_entries)); }
    auto functions() const & { return list(pe_c_list_functions, ask(pe_c_function_table)); }
    auto resource_leaves() const & { return list(pe_c_list_resource_leaves, ask(pe_c_resource_leaves)); }
    auto relocation_blocks() const & { return list(pe_c_list_relocation_blocks, ask(pe_c_relocation_blocks)); }
    /* The exports that have a name; all of them, those without one too. */
    auto exports() const &
    {
        auto tables = ask(pe_c_export_tables);
        return list(pe_c_list_exports, tables, static_cast<std::size_t>(tables->names.length / 2));
    }
    auto export_addresses() const &
    {
        return entries_of<pe_c_exported>(ask(pe_c_export_addresses), [this, of = *ask(pe_c_export_addresses), next = std::uint64_t(0)](
                pe_c_exported *room, std::size_t size, std::uint64_t &written) mutable {
            runs_room runs(size);
            pe_c_view it = view();
            return pe_c_list_export_addresses(&it, &of, &next, runs.data(), runs.size(), room, size, &written);
        });
    }
    auto libraries() const & { return list(pe_c_list_libraries, ask(pe_c_import_libraries), most_libraries()); }
    auto imports(const pe_c_library &of) const & { return list(pe_c_list_imports, outcome<pe_c_imports>(of.imports)); }
    auto delay_imports() const & { return list(pe_c_list_delay_imports, ask(pe_c_delay_imports)); }
    /* The imports of all libraries, each with the name of its library. Libraries of a hostile file may share a list, and its leaves a
     * directory, so that there are many more of them than the file has bytes: a loop over such ends by a number of its own. */
    auto all_imports() const &
    {
        auto libraries = ask(pe_c_import_libraries);
        pe_c_library_imports all{};
        all.libraries = *libraries;
        auto start = libraries ? outcome<pe_c_library_imports>(all) : outcome<pe_c_library_imports>(libraries.why());
        return list(pe_c_list_all_imports, start, most_libraries());
    }

    /* A list reads by its image: of one that ends with the statement there is none. */
    void debug_entries() const && = delete;
    void functions() const && = delete;
    void resource_leaves() const && = delete;
    void relocation_blocks() const && = delete;
    void exports() const && = delete;
    void export_addresses() const && = delete;
    void libraries() const && = delete;
    void imports(const pe_c_library &of) const && = delete;
    void delay_imports() const && = delete;
    void all_imports() const && = delete;
    template <class... A> void list(A &&...arguments) const && = delete;
    template <class... A> void walk(A &&...arguments) const && = delete;

private:
    /* Runs for two names of each library: a record of the directory has 20 bytes. */
    std::size_t most_libraries() const noexcept { return bytes_.size() / 10; }

    /* A walk from where it stands: that itself, or with the sections that it keeps beside, none at its start. */
    template <class W, class A> static W walk_at(const A &from) noexcept
    {
        if constexpr (std::is_same_v<W, A>)
            return from;
        else
            return W{from, {}};
    }

    /* Makes an index where calls would search many sections: pe_c_index asks for room for four entries a section. */
    std::uint32_t make_index()
    {
        if (sections_.size() <= 32)
            return PE_C_DONE;
        pe_c_view without = view();
        std::uint64_t written = 0;
        index_.resize(4 * sections_.size());
        std::uint32_t number = pe_c_index(&without, index_.data(), index_.size(), &written);
        index_.resize(static_cast<std::size_t>(written));
        return number;
    }

    template <class T, class Call> outcome<T> answered(Call call) const
    {
        T out{};
        std::uint32_t number = call(view(), out);
        return number == PE_C_DONE ? outcome<T>(out) : outcome<T>(result(number));
    }

    /* How many entries a call takes at most: more of a larger file, so that calls stay few. */
    template <class T, class W, class Call> entries<T, Call> entries_of(const outcome<W> &from, Call call) const
    {
        return {std::move(call), from.why(), std::max<std::size_t>(bytes_.size() / 64, std::size_t(1) << 16)};
    }

    bytes bytes_;
    pe_c_image_info info_{};
    std::vector<pe_c_section> sections_;
    std::vector<pe_c_range_entry> index_;
};

} // namespace pe_c

#endif
