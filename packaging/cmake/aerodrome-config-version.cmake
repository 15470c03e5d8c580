# Whether this version is one that find_package(aerodrome VERSION) accepts: before version 1.0, the same minor version and no older patch.
set(PACKAGE_VERSION "0.1.0")
if(PACKAGE_VERSION VERSION_EQUAL PACKAGE_FIND_VERSION)
    set(PACKAGE_VERSION_EXACT TRUE)
endif()
if(PACKAGE_FIND_VERSION VERSION_LESS_EQUAL PACKAGE_VERSION AND PACKAGE_FIND_VERSION VERSION_GREATER_EQUAL "0.1")
    set(PACKAGE_VERSION_COMPATIBLE TRUE)
endif()
