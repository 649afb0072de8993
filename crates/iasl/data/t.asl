DefinitionBlock ("", "SSDT", 2, "OEMX00", "TABLE001", 1)
{
    Name (X, 5)
}
