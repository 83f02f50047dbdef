# find_package(pathdb): the folder that ./install has filled may be moved, for all is found from here.
get_filename_component(pathdb_prefix "${CMAKE_CURRENT_LIST_DIR}/../../.." ABSOLUTE)
set(pathdb_include "${pathdb_prefix}/include")
set(pathdb_lib "${pathdb_prefix}/lib")
include("${CMAKE_CURRENT_LIST_DIR}/pathdb-targets.cmake")
