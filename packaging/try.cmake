# A user's project: the example with the static and with the shared library of an unpacked archive.
cmake_minimum_required(VERSION 3.13)
project(try C)
find_package(gesarumbo ${VERSION} REQUIRED)
add_executable(static ${EXAMPLE})
target_link_libraries(static gesarumbo::gesarumbo)
add_executable(shared ${EXAMPLE})
target_link_libraries(shared gesarumbo::shared)
