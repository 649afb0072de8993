DefinitionBlock ("", "SSDT", 2, "OEMX00", "TABLE001", 1)
{
    Method (_STA, 1) { Return (15) }
}
