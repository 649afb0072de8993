DefinitionBlock ("", "SSDT", 2, "OEMX00", "TABLE001", 1)
{
    Method (M, 0) { Return (1) }
}
