// A first host in C++, from C++11 on: the same as first.c. With the library installed in PREFIX:
//
//     export PKG_CONFIG_PATH=PREFIX/lib/pkgconfig
//     c++ first.cpp $(pkg-config --cflags --libs linguastel) -o first
#include <iostream>

#include <linguastel.h>

namespace {

// Task 1, of priority 5, sends 42 to data queue 1, which has room for 8 words. The call that takes a word without a wait is a handler's.
bool send_and_take(LinguastelRecord &record)
{
    if (!linguastel_is_ok(linguastel_idefine_task(&record, 1, 5))) return false;
    if (!linguastel_is_ok(linguastel_icre_dtq(&record, 1, LINGUASTEL_TA_TFIFO, 8))) return false;
    if (!linguastel_is_ok(linguastel_snd_dtq(&record, linguastel_as_task(1), 1, 42))) return false;
    const LinguastelAnswer received = linguastel_iprcv_dtq(&record, 1);
    if (!linguastel_is_ok(received)) return false;
    std::cout << "received " << received.a << '\n';
    return true;
}

// The data queue is empty now, so task 1 waits until a handler sends a word. fetch gives what its wait ended with.
bool wait_and_fetch(LinguastelRecord &record)
{
    if (!linguastel_waits(linguastel_rcv_dtq(&record, linguastel_as_task(1), 1))) return false;
    if (!linguastel_is_ok(linguastel_ipsnd_dtq(&record, 1, 43))) return false;
    const LinguastelAnswer fetched = linguastel_ifetch(&record, 1);
    if (!linguastel_is_ok(fetched)) return false;
    std::cout << "task 1 waited, and received " << fetched.a << '\n';
    return true;
}

// A refused call has a code, and changes nothing.
bool be_refused(LinguastelRecord &record)
{
    const LinguastelAnswer refused = linguastel_iprcv_dtq(&record, 2);
    if (linguastel_is_ok(refused) || linguastel_waits(refused)) return false;
    std::cout << "data queue 2: " << linguastel_code_name(refused.code) << '\n';
    return true;
}

} // namespace

int main()
{
    if (!linguastel_library_fits()) {
        std::cerr << "this is not the library of linguastel.h, version " << LINGUASTEL_VERSION_TEXT << '\n';
        return 1;
    }
    LinguastelRecord record{}; // zeroed: the empty record
    return send_and_take(record) && wait_and_fetch(record) && be_refused(record) ? 0 : 1;
}
