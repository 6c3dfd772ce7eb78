set_target_properties(Tarnoklej::tarnoklej PROPERTIES
  IMPORTED_LOCATION "${_tarnoklej_prefix}/lib/libtarnoklej.so.@VERSION@"
  IMPORTED_SONAME "libtarnoklej.so.@MAJOR@")
