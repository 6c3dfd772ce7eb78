set_target_properties(Tarnoklej::tarnoklej PROPERTIES
  IMPORTED_LOCATION "${_tarnoklej_prefix}/bin/tarnoklej.dll"
  IMPORTED_IMPLIB "${_tarnoklej_prefix}/lib/tarnoklej.lib")
