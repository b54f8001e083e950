DECLARE main PRE [] MAIN_PRE POST [int] PROP () RETURN (Vint(1)) SEP ();
