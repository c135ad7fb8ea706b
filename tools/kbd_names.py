"""The meanings of the symbols and the character sets of kbd 2.5.1. Written by dev/gen/list_kbd_names.py."""

# The names of characters past ASCII, each before its number.
CHARACTERS = """
AE 00c6 Aacute 00c1 Abreve 0102 Acircumflex 00c2 Adiaeresis 00c4 Agrave 00c0 Alpha 0391 Alphaaccent 0386
Amacron 0100 Aogonek 0104 Aring 00c5 Atilde 00c3 Beta 0392 Cabovedot 010a Cacute 0106 Ccaron 010c Ccedilla 00c7
Ccircumflex 0108 Chi 03a7 Dcaron 010e Delta 0394 Dstroke 0110 ENG 014a ETH 00d0 EZH 01b7 EZHcaron 01ee
Eabovedot 0116 Eacute 00c9 Ecaron 011a Ecircumflex 00ca Ediaeresis 00cb Egrave 00c8 Emacron 0112 Eogonek 0118
Epsilon 0395 Epsilonaccent 0388 Eta 0397 Etaaccent 0389 Gabovedot 0120 Gamma 0393 Gbreve 011e Gcaron 01e6
Gcedilla 0122 Gcircumflex 011c Gstroke 01e4 Hcaron 021e Hcircumflex 0124 Hstroke 0126 Iabovedot 0130 Iacute 00cd
Icircumflex 00ce Idiaeresis 00cf Idotabove 0130 Igrave 00cc Imacron 012a Iogonek 012e Iota 0399 Iotaaccent 038a
Iotadiaeresis 03aa Itilde 0128 Jcircumflex 0134 Kappa 039a Kcaron 01e8 Kcedilla 0136 Khi 03a7 Ksi 039e Lacute 0139
Lambda 039b Lamda 039b Lcaron 013d Lcedilla 013b Lstroke 0141 Mu 039c Nacute 0143 Ncaron 0147 Ncedilla 0145
Ntilde 00d1 Nu 039d OE 0152 Oacute 00d3 Ocircumflex 00d4 Odiaeresis 00d6 Odoubleacute 0150 Ograve 00d2 Omacron 014c
Omega 03a9 Omegaaccent 038f Omicron 039f Omicronaccent 038c Ooblique 00d8 Oslash 00d8 Ostroke 00d8 Otilde 00d5
Phi 03a6 Pi 03a0 Psi 03a8 Racute 0154 Rcaron 0158 Rcedilla 0156 Rho 03a1 Sacute 015a Scaron 0160 Scedilla 015e
Scircumflex 015c Sigma 03a3 THORN 00de Tau 03a4 Tcaron 0164 Tcedilla 0162 Theta 0398 Tslash 0166 Tstroke 0166
Uacute 00da Ubreve 016c Ucircumflex 00db Udiaeresis 00dc Udoubleacute 0170 Ugrave 00d9 Umacron 016a Uogonek 0172
Upsilon 03a5 Upsilonaccent 038e Upsilondiaeresis 03ab Uring 016e Utilde 0168 Xi 039e Yacute 00dd Ydiaeresis 0178
Zabovedot 017b Zacute 0179 Zcaron 017d Zeta 0396 aacute 00e1 abovedot 02d9 abreve 0103 accent 0384 acircumflex 00e2
acute 00b4 adiaeresis 00e4 ae 00e6 agrave 00e0 alef 05d0 almost_equal_to 2248 alpha 03b1 alphaaccent 03ac
amacron 0101 aogonek 0105 aring 00e5 atilde 00e3 ayin 05e2 bet 05d1 beta 03b2
bielorussian_cyrillic_capital_letter_i 0406 bielorussian_cyrillic_capital_letter_short_u 040e
bielorussian_cyrillic_small_letter_i 0456 bielorussian_cyrillic_small_letter_short_u 045e black_square 25a0
bottom_half_integral 2321 box_drawings_double_down_and_horizontal 2566 box_drawings_double_down_and_left 2557
box_drawings_double_down_and_right 2554 box_drawings_double_horizontal 2550
box_drawings_double_up_and_horizontal 2569 box_drawings_double_up_and_left 255d
box_drawings_double_up_and_right 255a box_drawings_double_vertical 2551
box_drawings_double_vertical_and_horizontal 256c box_drawings_double_vertical_and_right 2560
box_drawings_down_single_and_right_double 2552 box_drawings_light_down_and_horizontal 252c
box_drawings_light_down_and_left 2510 box_drawings_light_down_and_right 250c box_drawings_light_horizontal 2500
box_drawings_light_up_and_horizontal 2534 box_drawings_light_up_and_left 2518 box_drawings_light_up_and_right 2514
box_drawings_light_vertical 2502 box_drawings_light_vertical_and_horizontal 253c
box_drawings_light_vertical_and_left 2524 box_drawings_light_vertical_and_right 251c
box_drawings_up_double_and_horizontal_single 2568 box_drawings_up_double_and_right_single 2559
box_drawings_up_single_and_horizontal_double 2567 box_drawings_up_single_and_left_double 255b
box_drawings_up_single_and_right_double 2558 box_drawings_vertical_double_and_right_single 255f
box_drawings_vertical_single_and_horizontal_double 256a box_drawings_vertical_single_and_left_double 2561
box_drawings_vertical_single_and_right_double 255e breve 02d8 brokenbar 00a6 bullet 2022 bullet_operator 2219
cabovedot 010b cacute 0107 caron 02c7 ccaron 010d ccedilla 00e7 ccircumflex 0109 cedilla 00b8 cent 00a2 chi 03c7
copyright 00a9 currency 00a4 cyrillic_capital_hard_sign 042a cyrillic_capital_letter_a 0410
cyrillic_capital_letter_be 0411 cyrillic_capital_letter_che 0427 cyrillic_capital_letter_de 0414
cyrillic_capital_letter_dzhe 040f cyrillic_capital_letter_e 042d cyrillic_capital_letter_ef 0424
cyrillic_capital_letter_el 041b cyrillic_capital_letter_em 041c cyrillic_capital_letter_en 041d
cyrillic_capital_letter_er 0420 cyrillic_capital_letter_es 0421 cyrillic_capital_letter_ge 0413
cyrillic_capital_letter_ghe 0413 cyrillic_capital_letter_ghe_with_upturn 0490 cyrillic_capital_letter_ha 0425
cyrillic_capital_letter_i 0418 cyrillic_capital_letter_ia 042f cyrillic_capital_letter_ie 0415
cyrillic_capital_letter_ii 0418 cyrillic_capital_letter_io 0401 cyrillic_capital_letter_iu 042e
cyrillic_capital_letter_je 0408 cyrillic_capital_letter_ka 041a cyrillic_capital_letter_kha 0425
cyrillic_capital_letter_lje 0409 cyrillic_capital_letter_nje 040a cyrillic_capital_letter_o 041e
cyrillic_capital_letter_pe 041f cyrillic_capital_letter_reversed_e 042d cyrillic_capital_letter_sha 0428
cyrillic_capital_letter_shcha 0429 cyrillic_capital_letter_short_i 0419 cyrillic_capital_letter_short_ii 0419
cyrillic_capital_letter_te 0422 cyrillic_capital_letter_tse 0426 cyrillic_capital_letter_u 0423
cyrillic_capital_letter_ve 0412 cyrillic_capital_letter_ya 042f cyrillic_capital_letter_yeri 042b
cyrillic_capital_letter_yeru 042b cyrillic_capital_letter_yu 042e cyrillic_capital_letter_ze 0417
cyrillic_capital_letter_zhe 0416 cyrillic_capital_soft_sign 042c cyrillic_small_hard_sign 044a
cyrillic_small_letter_a 0430 cyrillic_small_letter_be 0431 cyrillic_small_letter_che 0447
cyrillic_small_letter_de 0434 cyrillic_small_letter_dzhe 045f cyrillic_small_letter_e 044d
cyrillic_small_letter_ef 0444 cyrillic_small_letter_el 043b cyrillic_small_letter_em 043c
cyrillic_small_letter_en 043d cyrillic_small_letter_er 0440 cyrillic_small_letter_es 0441
cyrillic_small_letter_ge 0433 cyrillic_small_letter_ghe 0433 cyrillic_small_letter_ghe_with_upturn 0491
cyrillic_small_letter_ha 0445 cyrillic_small_letter_i 0438 cyrillic_small_letter_ia 044f
cyrillic_small_letter_ie 0435 cyrillic_small_letter_ii 0438 cyrillic_small_letter_io 0451
cyrillic_small_letter_iu 044e cyrillic_small_letter_je 0458 cyrillic_small_letter_ka 043a
cyrillic_small_letter_kha 0445 cyrillic_small_letter_lje 0459 cyrillic_small_letter_nje 045a
cyrillic_small_letter_o 043e cyrillic_small_letter_pe 043f cyrillic_small_letter_reversed_e 044d
cyrillic_small_letter_sha 0448 cyrillic_small_letter_shcha 0449 cyrillic_small_letter_short_i 0439
cyrillic_small_letter_short_ii 0439 cyrillic_small_letter_te 0442 cyrillic_small_letter_tse 0446
cyrillic_small_letter_u 0443 cyrillic_small_letter_ve 0432 cyrillic_small_letter_ya 044f
cyrillic_small_letter_yeri 044b cyrillic_small_letter_yeru 044b cyrillic_small_letter_yu 044e
cyrillic_small_letter_ze 0437 cyrillic_small_letter_zhe 0436 cyrillic_small_soft_sign 044c dagger 2020 dalet 05d3
dark_shade 2593 dcaron 010f degree 00b0 delta 03b4 diaeresis 00a8 diaeresisaccent 0385 division 00f7 dotlessi 0131
double_low_9_quotation_mark 201e double_vertical_and_left 2563 doubleacute 02dd doubledagger 2021
doubleunderscore 2017 drachma 20af dstroke 0111 eabovedot 0117 eacute 00e9 ecaron 011b ecircumflex 00ea
ediaeresis 00eb egrave 00e8 ellipsis 2026 emacron 0113 emdash 2014 endash 2013 eng 014b eogonek 0119 epsilon 03b5
epsilonaccent 03ad eta 03b7 etaaccent 03ae eth 00f0 ethiopic_syllable_ba 1260 ethiopic_syllable_ha 1200
ethiopic_syllable_haa 1203 ethiopic_syllable_he 1205 ethiopic_syllable_hee 1204 ethiopic_syllable_hha 1210
ethiopic_syllable_hhaa 1213 ethiopic_syllable_hhe 1215 ethiopic_syllable_hhee 1214 ethiopic_syllable_hhi 1212
ethiopic_syllable_hho 1216 ethiopic_syllable_hhu 1211 ethiopic_syllable_hhwa 1217 ethiopic_syllable_hi 1202
ethiopic_syllable_ho 1206 ethiopic_syllable_hoa 1207 ethiopic_syllable_hu 1201 ethiopic_syllable_la 1208
ethiopic_syllable_laa 120b ethiopic_syllable_le 120d ethiopic_syllable_lee 120c ethiopic_syllable_li 120a
ethiopic_syllable_lo 120e ethiopic_syllable_lu 1209 ethiopic_syllable_lwa 120f ethiopic_syllable_ma 1218
ethiopic_syllable_maa 121b ethiopic_syllable_me 121d ethiopic_syllable_mee 121c ethiopic_syllable_mi 121a
ethiopic_syllable_mo 121e ethiopic_syllable_mu 1219 ethiopic_syllable_mwaa 121f ethiopic_syllable_qa 1240
ethiopic_syllable_qaa 1243 ethiopic_syllable_qe 1245 ethiopic_syllable_qee 1244 ethiopic_syllable_qha 1250
ethiopic_syllable_qhaa 1253 ethiopic_syllable_qhe 1255 ethiopic_syllable_qhee 1254 ethiopic_syllable_qhi 1252
ethiopic_syllable_qho 1256 ethiopic_syllable_qhu 1251 ethiopic_syllable_qhwa 1258 ethiopic_syllable_qhwaa 125b
ethiopic_syllable_qhwe 125d ethiopic_syllable_qhwee 125c ethiopic_syllable_qhwi 125a ethiopic_syllable_qi 1242
ethiopic_syllable_qo 1246 ethiopic_syllable_qoa 1247 ethiopic_syllable_qu 1241 ethiopic_syllable_qwa 1248
ethiopic_syllable_qwaa 124b ethiopic_syllable_qwe 124d ethiopic_syllable_qwee 124c ethiopic_syllable_qwi 124a
ethiopic_syllable_ra 1228 ethiopic_syllable_raa 122b ethiopic_syllable_re 122d ethiopic_syllable_ree 122c
ethiopic_syllable_ri 122a ethiopic_syllable_ro 122e ethiopic_syllable_ru 1229 ethiopic_syllable_rwa 122f
ethiopic_syllable_sa 1230 ethiopic_syllable_saa 1233 ethiopic_syllable_se 1235 ethiopic_syllable_see 1234
ethiopic_syllable_sha 1238 ethiopic_syllable_shaa 123b ethiopic_syllable_she 123d ethiopic_syllable_shee 123c
ethiopic_syllable_shi 123a ethiopic_syllable_sho 123e ethiopic_syllable_shu 1239 ethiopic_syllable_shwa 123f
ethiopic_syllable_si 1232 ethiopic_syllable_so 1236 ethiopic_syllable_su 1231 ethiopic_syllable_swa 1237
ethiopic_syllable_sza 1220 ethiopic_syllable_szaa 1223 ethiopic_syllable_sze 1225 ethiopic_syllable_szee 1224
ethiopic_syllable_szi 1222 ethiopic_syllable_szo 1226 ethiopic_syllable_szu 1221 ethiopic_syllable_szwa 1227
euro 20ac exclamdown 00a1 ezh 0292 ezhcaron 01ef finalkaf 05da finalmem 05dd finalnun 05df finalpe 05e3
finaltsadi 05e5 full_block 2588 gabovedot 0121 gamma 03b3 gbreve 011f gcaron 01e7 gcedilla 0123 gcircumflex 011d
gimel 05d2 greater_than_or_equal_to 2265 greek_ypogegrammeni 037a gstroke 01e5 guillemotleft 00ab
guillemotright 00bb hcaron 021f hcircumflex 0125 he 05d4 het 05d7 horizontal_bar 2015 hstroke 0127 hyphen 00ad
iacute 00ed icircumflex 00ee idiaeresis 00ef idotless 0131 igrave 00ec imacron 012b iogonek 012f iota 03b9
iotaaccent 03af iotadiaeresis 03ca iotadiaeresisaccent 0390 itilde 0129 jcircumflex 0135 kaf 05db kappa 03ba
kcaron 01e9 kcedilla 0137 khi 03c7 kra 0138 ksi 03be lacute 013a lambda 03bb lamda 03bb lamed 05dc lcaron 013e
lcedilla 013c left_double_quotation_mark 201c left_half_block 258c leftquote 2018 less_than_or_equal_to 2264
light_shade 2591 lower_half_block 2584 lstroke 0142 macedonian_cyrillic_capital_letter_dze 0405
macedonian_cyrillic_capital_letter_gje 0403 macedonian_cyrillic_capital_letter_kje 040c
macedonian_cyrillic_small_letter_dze 0455 macedonian_cyrillic_small_letter_gje 0453
macedonian_cyrillic_small_letter_kje 045c macron 00af masculine 00ba medium_shade 2592 mem 05de mu 00b5
multiplication 00d7 multiply 00d7 nacute 0144 ncaron 0148 ncedilla 0146 nobreakspace 00a0 notsign 00ac ntilde 00f1
nu 03bd number_acronym 2116 nun 05e0 oacute 00f3 ocircumflex 00f4 odiaeresis 00f6 odoubleacute 0151 oe 0153
ogonek 02db ograve 00f2 omacron 014d omega 03c9 omegaaccent 03ce omicron 03bf omicronaccent 03cc onehalf 00bd
onequarter 00bc onesuperior 00b9 ordfeminine 00aa oslash 00f8 ostroke 00f8 otilde 00f5 overscore 203e paragraph 00b6
paragraph_sign 00a7 pe 05e4 periodcentered 00b7 permille 2030 phi 03c6 pi 03c0 pilcrow 00b6 plusminus 00b1
pound 00a3 psi 03c8 qof 05e7 questiondown 00bf quotedblbase 201e racute 0155 rcaron 0159 rcedilla 0157
registered 00ae resh 05e8 rho 03c1 right_double_quotation_mark 201d right_half_block 2590 rightanglequote 00bb
rightquote 2019 sacute 015b samekh 05e1 scaron 0161 scedilla 015f scircumflex 015d section 00a7
serbocroatian_cyrillic_capital_letter_chje 040b serbocroatian_cyrillic_capital_letter_dje 0402
serbocroatian_cyrillic_small_letter_chje 045b serbocroatian_cyrillic_small_letter_dje 0452 shin 05e9 sigma 03c3
single_left_pointing_angle_quotation_mark 2039 single_low_9_quotation_mark 201a
single_right_pointing_angle_quotation_mark 203a soft_hyphen 00ad square_root 221a ssharp 00df sterling 00a3 tau 03c4
tav 05ea tcaron 0165 tcedilla 0163 terminalsigma 03c2 tet 05d8 thai_angkhankhu 0e5a thai_baht 0e3f
thai_bobaimai 0e1a thai_chochan 0e08 thai_chochang 0e0a thai_choching 0e09 thai_chochoe 0e0c thai_dochada 0e0e
thai_dodek 0e14 thai_fofa 0e1d thai_fofan 0e1f thai_fongman 0e4f thai_hohip 0e2b thai_honokhuk 0e2e
thai_khokhai 0e02 thai_khokhon 0e05 thai_khokhuat 0e03 thai_khokhwai 0e04 thai_khomut 0e5b thai_khorakhang 0e06
thai_kokai 0e01 thai_lakkhangyao 0e45 thai_lekchet 0e57 thai_lekha 0e55 thai_lekhok 0e56 thai_lekkao 0e59
thai_leknung 0e51 thai_lekpaet 0e58 thai_leksam 0e53 thai_leksi 0e54 thai_leksong 0e52 thai_leksun 0e50
thai_lochula 0e2c thai_loling 0e25 thai_lu 0e26 thai_maichattawa 0e4b thai_maiek 0e48 thai_maihanakat 0e31
thai_maitaikhu 0e47 thai_maitho 0e49 thai_maitri 0e4a thai_maiyamok 0e46 thai_moma 0e21 thai_ngongu 0e07
thai_nikhahit 0e4d thai_nonen 0e13 thai_nonu 0e19 thai_oang 0e2d thai_paiyannoi 0e2f thai_phinthu 0e3a
thai_phophan 0e1e thai_phophung 0e1c thai_phosamphao 0e20 thai_popla 0e1b thai_rorua 0e23 thai_ru 0e24
thai_saraa 0e30 thai_saraaa 0e32 thai_saraae 0e41 thai_saraaimaimalai 0e44 thai_saraaimaimuan 0e43 thai_saraam 0e33
thai_sarae 0e40 thai_sarai 0e34 thai_saraii 0e35 thai_sarao 0e42 thai_sarau 0e38 thai_saraue 0e36 thai_sarauee 0e37
thai_sarauu 0e39 thai_sorusi 0e29 thai_sosala 0e28 thai_soso 0e0b thai_sosua 0e2a thai_thanthakhat 0e4c
thai_thonangmontho 0e11 thai_thophuthao 0e12 thai_thothahan 0e17 thai_thothan 0e10 thai_thothong 0e18
thai_thothung 0e16 thai_topatak 0e0f thai_totao 0e15 thai_wowaen 0e27 thai_yamakkan 0e4e thai_yoyak 0e22
thai_yoying 0e0d theta 03b8 thorn 00fe threequarters 00be threesuperior 00b3 top_half_integral 2320 trademark 2122
tsadi 05e6 tslash 0167 tstroke 0167 twosuperior 00b2 uacute 00fa ubreve 016d ucircumflex 00fb udiaeresis 00fc
udoubleacute 0171 ugrave 00f9 ukrainian_cyrillic_capital_letter_ghe_with_upturn 0490
ukrainian_cyrillic_capital_letter_i 0406 ukrainian_cyrillic_capital_letter_ie 0404
ukrainian_cyrillic_capital_letter_yi 0407 ukrainian_cyrillic_small_letter_ghe_with_upturn 0491
ukrainian_cyrillic_small_letter_i 0456 ukrainian_cyrillic_small_letter_ie 0454
ukrainian_cyrillic_small_letter_yi 0457 umacron 016b uogonek 0173 upper_half_block 2580 upsilon 03c5
upsilonaccent 03cd upsilondiaeresis 03cb upsilondiaeresisaccent 03b0 uring 016f utilde 0169 vav 05d5 xi 03be
yacute 00fd ydiaeresis 00ff yen 00a5 yod 05d9 zabovedot 017c zacute 017a zayin 05d6 zcaron 017e zeta 03b6
"""

# The names that have another meaning in a character set.
CHARACTERS_IN = {
    "iso-8859-7": """
mu 03bc
""",
}

# The names of all other actions, each before its type and value.
ACTIONS = """
Alt 703 AltGr 701 AltGr_L 703 AltGr_Lock a01 AltGr_R 701 AltL 703 AltLLock a03 AltR 701 AltRLock a01 Alt_L 703
Alt_Lock a03 Alt_R 701 Ascii_0 900 Ascii_1 901 Ascii_2 902 Ascii_3 903 Ascii_4 904 Ascii_5 905 Ascii_6 906
Ascii_7 907 Ascii_8 908 Ascii_9 909 Bare_Num_Lock 213 Boot 20c Break 205 Brl_blank e00 Brl_dot1 e01 Brl_dot10 e0a
Brl_dot2 e02 Brl_dot3 e03 Brl_dot4 e04 Brl_dot5 e05 Brl_dot6 e06 Brl_dot7 e07 Brl_dot8 e08 Brl_dot9 e09
CapsShift 708 CapsShift_Lock a08 Caps_Lock 207 Caps_On 20d Compose 20e Control 702 Control_L 706 Control_Lock a02
Control_R 707 CtrlL 706 CtrlL_Lock a06 CtrlR 707 CtrlR_Lock a07 Decr_Console 210 Do 11c Down 600 End 117 Find 114
Help 11b Hex_0 90a Hex_1 90b Hex_2 90c Hex_3 90d Hex_4 90e Hex_5 90f Hex_6 910 Hex_7 911 Hex_8 912 Hex_9 913
Hex_A 914 Hex_B 915 Hex_C 916 Hex_D 917 Hex_E 918 Hex_F 919 Home 114 Incr_Console 211 Insert 115 KP_0 300 KP_1 301
KP_2 302 KP_3 303 KP_4 304 KP_5 305 KP_6 306 KP_7 307 KP_8 308 KP_9 309 KP_Add 30a KP_Comma 30f KP_Divide 30d
KP_Enter 30e KP_MinPlus 311 KP_Multiply 30c KP_Period 310 KP_Subtract 30b KeyboardSignal 212 Last_Console 206
Left 601 Macro 11a Next 119 Num_Lock 208 PageDown 119 PageUp 118 Pause 11d Prior 118 Remove 116 Return 201 Right 602
SAK 20f SAlt c03 SAltGr c01 SCapsShift c08 SControl c02 SCtrl c02 SCtrlL c06 SCtrlR c07 SShift c00 SShiftL c04
SShiftR c05 Scroll_Backward 20b Scroll_Forward 20a Scroll_Lock 209 Select 117 Shift 700 ShiftL 704 ShiftL_Lock a04
ShiftR 705 ShiftR_Lock a05 Shift_L 704 Shift_Lock a00 Shift_R 705 Show_Memory 203 Show_Registers 202 Show_State 204
Spawn_Console 212 Uncaps_Shift 708 Up 603 VoidSymbol 200 dead_abovecomma 414 dead_abovedot 408
dead_abovereversedcomma 415 dead_abovering 409 dead_acute 401 dead_belowcomma 418 dead_belowdot 410 dead_breve 403
dead_caron 402 dead_cedilla 405 dead_circumflex 402 dead_currency 419 dead_diaeresis 404 dead_doubleacute 403
dead_doublegrave 416 dead_grave 400 dead_greek 41a dead_hook 411 dead_horn 412 dead_invertedbreve 417 dead_iota 40d
dead_kbreve 407 dead_kcaron 40b dead_kdoubleacute 40a dead_kogonek 40c dead_macron 406 dead_ogonek 405
dead_semivoiced_sound 40f dead_stroke 413 dead_tilde 403 dead_voiced_sound 40e
"""

# The names of the control characters.
ASCII = """
BackSpace 08 Control_a 01 Control_asciicircum 1e Control_b 02 Control_backslash 1c Control_bracketright 1d
Control_c 03 Control_d 04 Control_e 05 Control_f 06 Control_g 07 Control_h 08 Control_i 09 Control_j 0a Control_k 0b
Control_l 0c Control_m 0d Control_n 0e Control_o 0f Control_p 10 Control_q 11 Control_r 12 Control_s 13 Control_t 14
Control_u 15 Control_underscore 1f Control_v 16 Control_w 17 Control_x 18 Control_y 19 Control_z 1a Delete 7f
Escape 1b Linefeed 0a Tab 09 ampersand 26 apostrophe 27 asciicircum 5e asciitilde 7e asterisk 2a at 40 backslash 5c
bar 7c braceleft 7b braceright 7d bracketleft 5b bracketright 5d circumflex 5e colon 3a comma 2c dollar 24 eight 38
equal 3d exclam 21 five 35 four 34 grave 60 greater 3e less 3c minus 2d nine 39 nul 00 numbersign 23 one 31
parenleft 28 parenright 29 percent 25 period 2e plus 2b question 3f quotedbl 22 semicolon 3b seven 37 six 36
slash 2f space 20 three 33 tilde 7e two 32 underscore 5f zero 30
"""

# The characters of the bytes 80 to FF in each character set.
BYTES = {
    "iso-8859-2": """
0080 0081 0082 0083 0084 0085 0086 0087 0088 0089 008a 008b 008c 008d 008e 008f 0090 0091 0092 0093 0094 0095 0096
0097 0098 0099 009a 009b 009c 009d 009e 009f 00a0 0104 02d8 0141 00a4 013d 015a 00a7 00a8 0160 015e 0164 0179 00ad
017d 017b 00b0 0105 02db 0142 00b4 013e 015b 02c7 00b8 0161 015f 0165 017a 02dd 017e 017c 0154 00c1 00c2 0102 00c4
0139 0106 00c7 010c 00c9 0118 00cb 011a 00cd 00ce 010e 0110 0143 0147 00d3 00d4 0150 00d6 00d7 0158 016e 00da 0170
00dc 00dd 0162 00df 0155 00e1 00e2 0103 00e4 013a 0107 00e7 010d 00e9 0119 00eb 011b 00ed 00ee 010f 0111 0144 0148
00f3 00f4 0151 00f6 00f7 0159 016f 00fa 0171 00fc 00fd 0163 02d9
""",
    "iso-8859-3": """
0080 0081 0082 0083 0084 0085 0086 0087 0088 0089 008a 008b 008c 008d 008e 008f 0090 0091 0092 0093 0094 0095 0096
0097 0098 0099 009a 009b 009c 009d 009e 009f 00a0 0126 02d8 00a3 00a4 00a5 0124 00a7 00a8 0130 015e 011e 0134 00ad
00ae 017b 00b0 0127 00b2 00b3 00b4 00b5 0125 00b7 00b8 0131 015f 011f 0135 00bd 00be 017c 00c0 00c1 00c2 00c3 00c4
010a 0108 00c7 00c8 00c9 00ca 00cb 00cc 00cd 00ce 00cf 00d0 00d1 00d2 00d3 00d4 0120 00d6 00d7 011c 00d9 00da 00db
00dc 016c 015c 00df 00e0 00e1 00e2 00e3 00e4 010b 0109 00e7 00e8 00e9 00ea 00eb 00ec 00ed 00ee 00ef 00f0 00f1 00f2
00f3 00f4 0121 00f6 00f7 011d 00f9 00fa 00fb 00fc 016d 015d 02d9
""",
    "iso-8859-4": """
0080 0081 0082 0083 0084 0085 0086 0087 0088 0089 008a 008b 008c 008d 008e 008f 0090 0091 0092 0093 0094 0095 0096
0097 0098 0099 009a 009b 009c 009d 009e 009f 00a0 0104 0138 0156 00a4 0128 013b 00a7 00a8 0160 0112 0122 0166 00ad
017d 00af 00b0 0105 02db 0157 00b4 0129 013c 02c7 00b8 0161 0113 0123 0167 014a 017e 014b 0100 00c1 00c2 00c3 00c4
00c5 00c6 012e 010c 00c9 0118 00cb 0116 00cd 00ce 012a 0110 0145 014c 0136 00d4 00d5 00d6 00d7 00d8 0172 00da 00db
00dc 0168 016a 00df 0101 00e1 00e2 00e3 00e4 00e5 00e6 012f 010d 00e9 0119 00eb 0117 00ed 00ee 012b 0111 0146 014d
0137 00f4 00f5 00f6 00f7 00f8 0173 00fa 00fb 00fc 0169 016b 02d9
""",
    "iso-8859-5": """
0080 0081 0082 0083 0084 0085 0086 0087 0088 0089 008a 008b 008c 008d 008e 008f 0090 0091 0092 0093 0094 0095 0096
0097 0098 0099 009a 009b 009c 009d 009e 009f 00a0 0401 0402 0403 0404 0405 0406 0407 0408 0409 040a 040b 040c 00ad
040e 040f 0410 0411 0412 0413 0414 0415 0416 0417 0418 0419 041a 041b 041c 041d 041e 041f 0420 0421 0422 0423 0424
0425 0426 0427 0428 0429 042a 042b 042c 042d 042e 042f 0430 0431 0432 0433 0434 0435 0436 0437 0438 0439 043a 043b
043c 043d 043e 043f 0440 0441 0442 0443 0444 0445 0446 0447 0448 0449 044a 044b 044c 044d 044e 044f 2116 0451 0452
0453 0454 0455 0456 0457 0458 0459 045a 045b 045c 00a7 045e 045f
""",
    "iso-8859-7": """
0080 0081 0082 0083 0084 0085 0086 0087 0088 0089 008a 008b 008c 008d 008e 008f 0090 0091 0092 0093 0094 0095 0096
0097 0098 0099 009a 009b 009c 009d 009e 009f 00a0 2018 2019 00a3 20ac 20af 00a6 00a7 00a8 00a9 037a 00ab 00ac 00ad
00ae 2015 00b0 00b1 00b2 00b3 0384 0385 0386 00b7 0388 0389 038a 00bb 038c 00bd 038e 038f 0390 0391 0392 0393 0394
0395 0396 0397 0398 0399 039a 039b 039c 039d 039e 039f 03a0 03a1 00d2 03a3 03a4 03a5 03a6 03a7 03a8 03a9 03aa 03ab
03ac 03ad 03ae 03af 03b0 03b1 03b2 03b3 03b4 03b5 03b6 03b7 03b8 03b9 03ba 03bb 03bc 03bd 03be 03bf 03c0 03c1 03c2
03c3 03c4 03c5 03c6 03c7 03c8 03c9 03ca 03cb 03cc 03cd 03ce 00ff
""",
    "iso-8859-8": """
0080 0081 0082 0083 0084 0085 0086 0087 0088 0089 008a 008b 008c 008d 008e 008f 0090 0091 0092 0093 0094 0095 0096
0097 0098 0099 009a 009b 009c 009d 009e 009f 00a0 00a1 00a2 00a3 00a4 00a5 00a6 00a7 00a8 00a9 00d7 00ab 00ac 00ad
00ae 203e 00b0 00b1 00b2 00b3 00b4 00b5 00b6 00b7 00b8 00b9 00f7 00bb 00bc 00bd 00be 00bf 00c0 00c1 00c2 00c3 00c4
00c5 00c6 00c7 00c8 00c9 00ca 00cb 00cc 00cd 00ce 00cf 00d0 00d1 00d2 00d3 00d4 00d5 00d6 00d7 00d8 00d9 00da 00db
00dc 00dd 00de 2017 05d0 05d1 05d2 05d3 05d4 05d5 05d6 05d7 05d8 05d9 05da 05db 05dc 05dd 05de 05df 05e0 05e1 05e2
05e3 05e4 05e5 05e6 05e7 05e8 05e9 05ea 00fb 00fc 00fd 00fe 00ff
""",
    "iso-8859-9": """
0080 0081 0082 0083 0084 0085 0086 0087 0088 0089 008a 008b 008c 008d 008e 008f 0090 0091 0092 0093 0094 0095 0096
0097 0098 0099 009a 009b 009c 009d 009e 009f 00a0 00a1 00a2 00a3 00a4 00a5 00a6 00a7 00a8 00a9 00aa 00ab 00ac 00ad
00ae 00af 00b0 00b1 00b2 00b3 00b4 00b5 00b6 00b7 00b8 00b9 00ba 00bb 00bc 00bd 00be 00bf 00c0 00c1 00c2 00c3 00c4
00c5 00c6 00c7 00c8 00c9 00ca 00cb 00cc 00cd 00ce 00cf 011e 00d1 00d2 00d3 00d4 00d5 00d6 00d7 00d8 00d9 00da 00db
00dc 0130 015e 00df 00e0 00e1 00e2 00e3 00e4 00e5 00e6 00e7 00e8 00e9 00ea 00eb 00ec 00ed 00ee 00ef 011f 00f1 00f2
00f3 00f4 00f5 00f6 00f7 00f8 00f9 00fa 00fb 00fc 0131 015f 00ff
""",
    "iso-8859-10": """
0080 0081 0082 0083 0084 0085 0086 0087 0088 0089 008a 008b 008c 008d 008e 008f 0090 0091 0092 0093 0094 0095 0096
0097 0098 0099 009a 009b 009c 009d 009e 009f 00a0 0104 0112 0122 012a 0128 0136 00a7 013b 0110 0160 0166 017d 00ad
016a 014a 00b0 0105 0113 0123 012b 0129 0137 00b7 013c 0111 0161 0167 017e 2014 016b 014b 0100 00c1 00c2 00c3 00c4
00c5 00c6 012e 010c 00c9 0118 00cb 0116 00cd 00ce 00cf 00d0 0145 014c 00d3 00d4 00d5 00d6 0168 00d8 0172 00da 00db
00dc 00dd 00de 00df 0101 00e1 00e2 00e3 00e4 00e5 00e6 012f 010d 00e9 0119 00eb 0117 00ed 00ee 00ef 00f0 0146 014d
00f3 00f4 00f5 00f6 0169 00f8 0173 00fa 00fb 00fc 00fd 00fe 0138
""",
    "iso-8859-15": """
0080 0081 0082 0083 0084 0085 0086 0087 0088 0089 008a 008b 008c 008d 008e 008f 0090 0091 0092 0093 0094 0095 0096
0097 0098 0099 009a 009b 009c 009d 009e 009f 00a0 00a1 00a2 00a3 20ac 00a5 0160 00a7 0161 00a9 00aa 00ab 00ac 00ad
00ae 00af 00b0 00b1 00b2 00b3 017d 00b5 00b6 00b7 017e 00b9 00ba 00bb 0152 0153 0178 00bf 00c0 00c1 00c2 00c3 00c4
00c5 00c6 00c7 00c8 00c9 00ca 00cb 00cc 00cd 00ce 00cf 00d0 00d1 00d2 00d3 00d4 00d5 00d6 00d7 00d8 00d9 00da 00db
00dc 00dd 00de 00df 00e0 00e1 00e2 00e3 00e4 00e5 00e6 00e7 00e8 00e9 00ea 00eb 00ec 00ed 00ee 00ef 00f0 00f1 00f2
00f3 00f4 00f5 00f6 00f7 00f8 00f9 00fa 00fb 00fc 00fd 00fe 00ff
""",
    "koi8-r": """
2500 2502 250c 2510 2514 2518 251c 2524 252c 2534 253c 2580 2584 2588 258c 2590 2591 2592 2593 2320 25a0 2219 221a
2248 2264 2265 00a0 2321 00b0 00b2 00b7 00f7 2550 2551 2552 0451 0454 2554 0456 0457 2557 2558 2559 255a 255b 0491
255d 255e 255f 2560 2561 0401 0404 2563 0406 0407 2566 2567 2568 2569 256a 0490 256c 00a9 044e 0430 0431 0446 0434
0435 0444 0433 0445 0438 0439 043a 043b 043c 043d 043e 043f 044f 0440 0441 0442 0443 0436 0432 044c 044b 0437 0448
044d 0449 0447 044a 042e 0410 0411 0426 0414 0415 0424 0413 0425 0418 0419 041a 041b 041c 041d 041e 041f 042f 0420
0421 0422 0423 0416 0412 042c 042b 0417 0428 042d 0429 0427 042a
""",
    "koi8-u": """
2500 2502 250c 2510 2514 2518 251c 2524 252c 2534 253c 2580 2584 2588 258c 2590 2591 2592 2593 2320 25a0 2219 221a
2248 2264 2265 00a0 2321 00b0 00b2 00b7 00f7 2550 2551 2552 0451 0454 2554 0456 0457 2557 2558 2559 255a 255b 0491
255d 255e 255f 2560 2561 0401 0404 2563 0406 0407 2566 2567 2568 2569 256a 0490 256c 00a9 044e 0430 0431 0446 0434
0435 0444 0433 0445 0438 0439 043a 043b 043c 043d 043e 043f 044f 0440 0441 0442 0443 0436 0432 044c 044b 0437 0448
044d 0449 0447 044a 042e 0410 0411 0426 0414 0415 0424 0413 0425 0418 0419 041a 041b 041c 041d 041e 041f 042f 0420
0421 0422 0423 0416 0412 042c 042b 0417 0428 042d 0429 0427 042a
""",
    "mazovia": """
0080 0081 0082 0083 0084 0085 0105 0087 0088 0089 008a 008b 008c 0107 008e 0104 0118 0119 0142 0093 0094 0106 0096
0097 015a 0099 009a 009b 0141 009d 015b 009f 0179 017b 00f3 00d3 0144 0143 017a 017c 00a8 00a9 00aa 00ab 00ac 00ad
00ab 00bb 00b0 00b1 00b2 00b3 00b4 00b5 00b6 00b7 00b8 00b9 00ba 00bb 00bc 00bd 00be 00bf 00c0 00c1 00c2 00c3 00c4
00c5 00c6 00c7 00c8 00c9 00ca 00cb 00cc 00cd 00ce 00cf 00d0 00d1 00d2 00d3 00d4 00d5 00d6 00d7 00d8 00d9 00da 00db
00dc 00dd 00de 00df 00e0 00e1 00e2 00e3 00e4 00e5 00e6 00e7 00e8 00e9 00ea 00eb 00ec 00ed 00ee 00ef 00f0 00f1 00f2
00f3 00f4 00f5 00f6 00f7 00f8 00f9 00fa 00fb 00fc 00fd 00fe 201e
""",
    "cp-1250": """
20ac 0081 201a 0083 201e 2026 2020 2021 0088 2030 0160 2039 015a 0164 017d 0179 0090 2018 2019 201c 201d 2022 2013
2014 0098 2122 0161 203a 015b 0165 017e 017a 00a0 02c7 02d8 0141 00a4 0104 00a6 00a7 00a8 00a9 015e 00ab 00ac 00ad
00ae 017b 00b0 00b1 02db 0142 00b4 00b5 00b6 00b7 00b8 0105 015f 00bb 013d 02dd 013e 017c 0154 00c1 00c2 0102 00c4
0139 0106 00c7 010c 00c9 0118 00cb 011a 00cd 00ce 010e 0110 0143 0147 00d3 00d4 0150 00d6 00d7 0158 016e 00da 0170
00dc 00dd 0162 00df 0155 00e1 00e2 0103 00e4 013a 0107 00e7 010d 00e9 0119 00eb 011b 00ed 00ee 010f 0111 0144 0148
00f3 00f4 0151 00f6 00f7 0159 016f 00fa 0171 00fc 00fd 0163 02d9
""",
    "tis-620": """
0080 0081 0082 0083 0084 0085 0086 0087 0088 0089 008a 008b 008c 008d 008e 008f 0090 0091 0092 0093 0094 0095 0096
0097 0098 0099 009a 009b 009c 009d 009e 009f 00a0 0e01 0e02 0e03 0e04 0e05 0e06 0e07 0e08 0e09 0e0a 0e0b 0e0c 0e0d
0e0e 0e0f 0e10 0e11 0e12 0e13 0e14 0e15 0e16 0e17 0e18 0e19 0e1a 0e1b 0e1c 0e1d 0e1e 0e1f 0e20 0e21 0e22 0e23 0e24
0e25 0e26 0e27 0e28 0e29 0e2a 0e2b 0e2c 0e2d 0e2e 0e2f 0e30 0e31 0e32 0e33 0e34 0e35 0e36 0e37 0e38 0e39 0e3a 00db
00dc 00dd 00de 0e3f 0e40 0e41 0e42 0e43 0e44 0e45 0e46 0e47 0e48 0e49 0e4a 0e4b 0e4c 0e4d 0e4e 0e4f 0e50 0e51 0e52
0e53 0e54 0e55 0e56 0e57 0e58 0e59 0e5a 0e5b 00fc 00fd 00fe 00ff
""",
    "iso-10646-18": """
0080 0081 0082 0083 0084 0085 0086 0087 0088 0089 008a 008b 008c 008d 008e 008f 0090 0091 0092 0093 0094 0095 0096
0097 0098 0099 009a 009b 009c 009d 009e 1200 1201 1202 1203 1204 1205 1206 1207 1208 1209 120a 120b 120c 120d 120e
120f 1210 1211 1212 1213 1214 1215 1216 1217 1218 1219 121a 121b 121c 121d 121e 121f 1220 1221 1222 1223 1224 1225
1226 1227 1228 1229 122a 122b 122c 122d 122e 122f 1230 1231 1232 1233 1234 1235 1236 1237 1238 1239 123a 123b 123c
123d 123e 123f 1240 1241 1242 1243 1244 1245 1246 1247 1248 00e8 124a 124b 124c 124d 00ed 00ee 1250 1251 1252 1253
1254 1255 1256 00f6 1258 00f8 125a 125b 125c 125d 00fd 00fe 1260
""",
    "iso-ir-197": """
0080 0081 0082 0083 0084 0085 0086 0087 0088 0089 008a 008b 008c 008d 008e 008f 0090 0091 0092 0093 0094 0095 0096
0097 0098 0099 009a 009b 009c 009d 009e 009f 00a0 010c 010d 0110 0111 01e4 01e5 00a7 01e6 00a9 01e7 00ab 01e8 00ad
01e9 014a 00b0 014b 0160 0161 00b4 0166 00b6 00b7 0167 017d 017e 00bb 01b7 0292 01ee 01ef 00c0 00c1 00c2 00c3 00c4
00c5 00c6 00c7 00c8 00c9 00ca 00cb 00cc 00cd 00ce 00cf 00d0 00d1 00d2 00d3 00d4 00d5 00d6 00d7 00d8 00d9 00da 00db
00dc 00dd 00de 00df 00e0 00e1 00e2 00e3 00e4 00e5 00e6 00e7 00e8 00e9 00ea 00eb 00ec 00ed 00ee 00ef 00f0 00f1 00f2
00f3 00f4 00f5 00f6 00f7 00f8 00f9 00fa 00fb 00fc 00fd 00fe 00ff
""",
    "iso-ir-209": """
0080 0081 0082 0083 0084 0085 0086 0087 0088 0089 008a 008b 008c 008d 008e 008f 0090 0091 0092 0093 0094 0095 0096
0097 0098 0099 009a 009b 009c 009d 009e 009f 00a0 010c 010d 0110 0111 01e4 01e5 00a7 01e6 00a9 01e7 021e 01e8 00ad
01e9 014a 00b0 014b 0160 0161 00b4 0166 00b6 00b7 0167 017d 017e 021f 01b7 0292 01ee 01ef 00c0 00c1 00c2 00c3 00c4
00c5 00c6 00c7 00c8 00c9 00ca 00cb 00cc 00cd 00ce 00cf 00d0 00d1 00d2 00d3 00d4 00d5 00d6 00d7 00d8 00d9 00da 00db
00dc 00dd 00de 00df 00e0 00e1 00e2 00e3 00e4 00e5 00e6 00e7 00e8 00e9 00ea 00eb 00ec 00ed 00ee 00ef 00f0 00f1 00f2
00f3 00f4 00f5 00f6 00f7 00f8 00f9 00fa 00fb 00fc 00fd 00fe 00ff
""",
}
