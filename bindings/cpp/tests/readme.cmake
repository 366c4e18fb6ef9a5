# Writes the program of the README to the file `readme`.
file(READ "${CMAKE_CURRENT_LIST_DIR}/../README.md" text)
string(REGEX REPLACE "^.*```cpp\n" "" text "${text}")
string(REGEX REPLACE "\n```.*$" "\n" text "${text}")
set(readme "${CMAKE_CURRENT_BINARY_DIR}/readme.cpp")
file(WRITE "${readme}" "${text}")
