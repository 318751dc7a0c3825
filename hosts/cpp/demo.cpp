// A host in C++11: two carriers, each with a data queue of two words, an import task and a reader. Carrier A's import task sends more than its queue holds
// and waits; carrier B's words arrive all the same. Prints hosts/cpp/demo.txt; the exit status is 1 where a call is refused that has to be accepted.
#include <cstdint>
#include <exception>
#include <iostream>
#include <stdexcept>
#include <string>
#include <vector>

#include "linguastel_print.h"

namespace {

enum Task : std::uint32_t { a_import = 1, a_reader, b_import, b_reader };
enum Queue : std::uint32_t { a_queue = 1, b_queue };

const std::int32_t few_ticks = 2;

// The one record of this host. A copy would be an older state, which no call may be made on.
class Kernel {
public:
    Kernel() = default;
    Kernel(const Kernel &) = delete;
    Kernel &operator=(const Kernel &) = delete;

    void define(Task task, std::uint32_t priority) { accepted(linguastel_idefine_task(&record, task, priority)); }

    void create(Queue queue, std::uint32_t capacity) { accepted(linguastel_icre_dtq(&record, queue, LINGUASTEL_TA_TFIFO, capacity)); }

    // Whether the word was sent; else the task waits with it.
    bool send(Task task, Queue queue, std::uint32_t word)
    {
        return !linguastel_waits(accepted(linguastel_tsnd_dtq(&record, linguastel_as_task(task), queue, word, few_ticks)));
    }

    std::uint32_t receive(Task task, Queue queue) { return accepted(linguastel_prcv_dtq(&record, linguastel_as_task(task), queue)).a; }

    // The words that a queue has room for, in one table of calls; gives how many these are.
    std::size_t send_burst(Task task, Queue queue, const std::vector<std::uint32_t> &words)
    {
        std::vector<LinguastelCall> calls;
        for (std::uint32_t word : words) {
            calls.push_back(linguastel_fields(linguastel_as_task(task), LINGUASTEL_PSND_DTQ, queue, word, 0, 0));
        }
        std::vector<LinguastelAnswer> answers(calls.size());
        require_ok(linguastel_table(&record, calls.data(), calls.size(), answers.data(), answers.size()));
        std::size_t sent = 0;
        while (sent < answers.size() && linguastel_is_ok(answers[sent])) {
            sent++;
        }
        return sent;
    }

    void tick() { accepted(linguastel_tick(&record)); }

    // How a task's last wait ended.
    std::string ended(Task task) { return linguastel_code_name(linguastel_ifetch(&record, task).code); }

    bool can_run(Task task) const { return (linguastel_runnable(&record) & linguastel_task_bit(task)) != 0; }

    void print() const { linguastel_print(stdout, &record); }

private:
    // Every other code is a mistake of this host.
    static void require_ok(std::int32_t code)
    {
        if (code != LINGUASTEL_E_OK) {
            throw std::runtime_error(std::string(linguastel_code_name(code)) + ": " + linguastel_code_meaning(code));
        }
    }

    // Done, or the caller waits.
    static LinguastelAnswer accepted(LinguastelAnswer answer)
    {
        if (!linguastel_waits(answer)) {
            require_ok(answer.code);
        }
        return answer;
    }

    LinguastelRecord record{}; // zeros: the empty record
};

const char *outcome(bool sent)
{
    return sent ? "is done" : "waits";
}

void play(Kernel &kernel)
{
    for (Task task : { a_import, a_reader, b_import, b_reader }) {
        kernel.define(task, 5);
    }
    for (Queue queue : { a_queue, b_queue }) {
        kernel.create(queue, 2);
    }
    std::cout << "A's import task hands over 3 words; accepted: " << kernel.send_burst(a_import, a_queue, { 10, 11, 12 }) << '\n';
    std::cout << "it sends the third again and " << outcome(kernel.send(a_import, a_queue, 12)) << '\n';
    std::cout << "meanwhile B's import task sends a word and " << outcome(kernel.send(b_import, b_queue, 615)) << '\n';
    std::cout << "B's reader receives " << kernel.receive(b_reader, b_queue) << '\n';
    kernel.print();

    std::cout << "A's reader receives " << kernel.receive(a_reader, a_queue) << "; A's import task ";
    std::cout << (kernel.can_run(a_import) ? "can run, its wait ended with " : "still waits, ") << kernel.ended(a_import) << '\n';
    std::cout << "it sends a fourth and " << outcome(kernel.send(a_import, a_queue, 13)) << '\n';
    for (std::int32_t ticks = 0; ticks <= few_ticks; ticks++) {
        kernel.tick();
    }
    std::cout << "nobody receives; after " << few_ticks + 1 << " ticks its wait ended with " << kernel.ended(a_import) << '\n';
    kernel.print();
}

} // namespace

int main()
{
    try {
        if (!linguastel_library_fits() || !linguastel_table_library_fits()) {
            throw std::runtime_error("the library isn't that of the header, " LINGUASTEL_VERSION_TEXT);
        }
        Kernel kernel;
        play(kernel);
        return 0;
    } catch (const std::exception &fault) {
        std::cerr << fault.what() << '\n';
        return 1;
    }
}
