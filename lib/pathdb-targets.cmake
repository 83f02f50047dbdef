# The targets of libpathdb, of the headers in pathdb_include and the libraries in pathdb_lib:
#   pathdb::pathdb   the shared library
#   pathdb::static   the archive
#   pathdb::read     pathdb_read.h alone, for all systems
# The first two are there on Linux, for x86-64 and aarch64.
if(NOT TARGET pathdb::read)
    add_library(pathdb::read INTERFACE IMPORTED GLOBAL)
    set_target_properties(pathdb::read PROPERTIES INTERFACE_INCLUDE_DIRECTORIES "${pathdb_include}")
endif()
if(CMAKE_SYSTEM_NAME STREQUAL "Linux" AND EXISTS "${pathdb_lib}/libpathdb.so.1" AND NOT TARGET pathdb::pathdb)
    add_library(pathdb::pathdb SHARED IMPORTED GLOBAL)
    set_target_properties(pathdb::pathdb PROPERTIES
        IMPORTED_LOCATION "${pathdb_lib}/libpathdb.so.1"
        IMPORTED_SONAME "libpathdb.so.1"
        INTERFACE_INCLUDE_DIRECTORIES "${pathdb_include}")
endif()
if(CMAKE_SYSTEM_NAME STREQUAL "Linux" AND EXISTS "${pathdb_lib}/libpathdb.a" AND NOT TARGET pathdb::static)
    add_library(pathdb::static STATIC IMPORTED GLOBAL)
    set_target_properties(pathdb::static PROPERTIES
        IMPORTED_LOCATION "${pathdb_lib}/libpathdb.a"
        INTERFACE_INCLUDE_DIRECTORIES "${pathdb_include}")
endif()
