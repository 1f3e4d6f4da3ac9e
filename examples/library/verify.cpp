// Verifies files: verify FILE .. prints for each whether it is accepted, and else its first fault and where that is.
#include <ppdb.h>

#include <fstream>
#include <iostream>
#include <iterator>
#include <vector>

int main(int count, char **names) {
    int worst = PPDB_DONE;
    for (int at = 1; at < count; at++) {
        std::ifstream in(names[at], std::ios::binary);
        std::vector<char> bytes((std::istreambuf_iterator<char>(in)), std::istreambuf_iterator<char>());
        // A vector without bytes may lend a null pointer, which the library does not take.
        bytes.reserve(1);
        ppdb_fault fault;
        const int status = ppdb_verify(reinterpret_cast<const uint8_t *>(bytes.data()), bytes.size(), &fault);
        std::cout << names[at] << ": ";
        if (status == PPDB_DONE)
            std::cout << "accepted\n";
        else if (status != PPDB_REFUSED)
            std::cout << "status " << status << "\n";
        else if (fault.part == 5)
            std::cout << "refused, F" << +fault.code << " at table " << std::hex << +fault.table << std::dec << ", row " << fault.row
                      << ", column " << +fault.column << ", byte " << fault.byte << "\n";
        else
            std::cout << "refused, F" << +fault.code << " in part " << +fault.part << ", byte " << fault.byte << "\n";
        worst = status > worst ? status : worst;
    }
    return worst;
}
