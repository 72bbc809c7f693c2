#!/bin/bash
# Make the pictures of docs/PERFORMANCE.md: 256 by 256 texels, as PNG and PAM, from packages of Debian (232 MB).
# Those in FOLDER/chosen are for tuning the search. Those in `FOLDER/told` are for figures, and nothing is tuned on them.
# With `full`, make FOLDER/full_chosen and FOLDER/full_told instead: game textures of 1,024 and 2,048 texels, with the
# sides that they have, from supertuxkart-data (CC-BY-SA, CC-BY, CC0, GPL), hedgewars-data (GPL-2), stellarium-data and
# torcs-data (GPL-2+): 1,350 MB to fetch. Each package's copyright file names the authors. FOLDER/full_normals has four
# normal maps: red, green and blue in the PNG files, X in grey and Y in alpha in the PAM files.
# If a package is missing, the script names it and the lost picture, makes the others, and ends with status 1.
# Needs imagemagick, ffmpeg and fonts-dejavu-core.    bench/pictures.sh FOLDER [full]
set -euo pipefail
set_name=${2-}
convert_picture=$(realpath "$(dirname "$0")/../examples/convert_picture")
mkdir -p "$1/packages" && cd "$1"
status=0

complain() { echo "pictures.sh: $*" >&2; status=1; }

fetch() {  # PACKAGE..: the files of each, in packages/PACKAGE
  local name
  for name; do
    [ -d packages/$name ] || (cd packages && apt-get download -qq -o APT::Sandbox::User=root $name && dpkg-deb -x ${name}_*.deb $name) ||
      complain "no package $name"
  done
}

is_there() {  # FILE PICTURE: where a file isn't, its picture isn't either
  [ -e "$1" ] && return
  complain "no $1, so no $2"
  rm -f $2.png $2.pam
  return 1
}

square() {  # FILE PICTURE: the middle of a file, made smaller or larger
  is_there "$1" $2 || return 0
  convert "$1" -gravity center -resize 256x256^ -extent 256x256 -depth 8 PNG32:$2.png
}

crop() {  # FILE LEFT TOP PICTURE: a square of a file, texel by texel
  is_there "$1" $4 || return 0
  convert "$1" -crop 256x256+$2+$3 +repage -depth 8 PNG32:$4.png
}

tiles() {  # FOLDER NAMES SIZE COUNT PICTURE: the first pictures of a folder, side by side on nothing
  is_there "$1" $5 || return 0
  montage -background none -geometry "$3" -tile $4x$4 \
    $(find "$1" -name "$2" | LC_ALL=C sort | head -n $(($4 * $4))) -depth 8 PNG32:$5.png
}

slopes() {  # PICTURE PICTURE: normals from the slopes of a picture's grey, red across, green down, blue up
  is_there $1.png $2 || return 0
  convert $1.png -alpha off -colorspace Gray -blur 0x1 grey.png
  convert grey.png -define convolve:scale='25%!' -define convolve:bias=50% -morphology Convolve Sobel:0 across.png
  convert grey.png -define convolve:scale='25%!' -define convolve:bias=50% -morphology Convolve Sobel:90 down.png
  convert across.png down.png -fx 'sqrt(max(0, 1 - (2*u-1)^2 - (2*v-1)^2)) / 2 + 0.5' up.png
  convert across.png down.png up.png -combine -depth 8 PNG32:$2.png
  rm grey.png across.png down.png up.png
}

two_channels() {  # PICTURE: of normals, red and green are left and blue is 0
  [ -e $1.png ] || return 0
  mogrify -channel B -evaluate set 0 -depth 8 $1.png
}

colour_and_alpha() {  # PICTURE: of normals, red is in all three colours and green in alpha
  [ -e $1.png ] || return 0
  convert $1.png -alpha off \( +clone -channel G -separate +channel \) -compose CopyOpacity -composite \
    -channel GB -fx u.r +channel -depth 8 PNG32:moved.png
  mv moved.png $1.png
}

lettering() {  # WORDS PICTURE OPTIONS: words in the options' colours and size
  local words=$1 picture=$2
  shift 2
  is_there $font $picture || return 0
  convert -size 256x256 "$@" -font $font caption:"$words" -depth 8 PNG32:$picture.png
}

noise() {  # PICTURE: colours that run across and down, each channel with grain of at most 16 of 255
  awk '
    function grained(value) { state = state * 16807 % 2147483647; return int(value + state / 2147483647 * 33 - 16) }
    BEGIN {
      print "P3 256 256 255"
      state = 1
      for (y = 0; y < 256; y++)
        for (x = 0; x < 256; x++)
          print grained(24 + x * 0.8), grained(24 + y * 0.8), grained(228 - (x + y) * 0.4)
    }' | convert ppm:- -depth 8 PNG32:$1.png
}

whole() {  # FILE PICTURE: all of a file, with its own sides
  is_there "$1" $2 || return 0
  convert "$1" -depth 8 PNG32:$2.png
}

make_pam() {  # FOLDER..: a PAM file beside each PNG file
  local folder picture
  for folder; do
    for picture in "$folder"/*.png; do
      ffmpeg -loglevel error -y -i "$picture" -pix_fmt rgba -c:v pam -f image2 "${picture%.png}.pam"
    done
  done
}

make_full() {  # whole textures of games: albedo, foliage, normals, masks, skies, sprites, line art, a photograph
  local kart=packages/supertuxkart-data/usr/share/games/supertuxkart/data chosen=full_chosen told=full_told
  local hog=packages/hedgewars-data/usr/share/games/hedgewars/Data
  local sky=packages/stellarium-data/usr/share/stellarium tracks=packages/torcs-data/usr/share/games/torcs/tracks
  mkdir -p $chosen $told
  fetch supertuxkart-data hedgewars-data stellarium-data torcs-data
  whole $kart/textures/stktex_generic_aztekWall_a.png $chosen/albedo_wall
  whole $kart/tracks/cave/Ground010_1K_Color.png $chosen/albedo_ground
  whole $kart/textures/stklama_road_a.png $chosen/albedo_road
  whole $kart/textures/stk_accacia_a.png $chosen/foliage_accacia
  whole $kart/textures/stktex_generic_cobbleStoneA_Normal.png $chosen/normals_cobble
  whole $kart/karts/nolok/nolok_Normal.png $chosen/normals_nolok
  whole $kart/karts/xue/xue-2_PbrData.png $chosen/mask_xue
  whole $kart/tracks/scotland/skybox_side.png $chosen/sky_scotland
  whole $kart/textures/skybox/generic_lightblue_skybox_south.png $chosen/sky_lightblue
  whole $hog/Maps/Lonely_Island/map.png $chosen/sprite_island
  whole $sky/skycultures/boorong/won.png $chosen/art_boorong
  whole "$(find $tracks -name patched-asphalt-1.png | head -n 1)" $chosen/albedo_asphalt
  whole $kart/textures/stktex_generic_rockA.png $told/albedo_rock
  whole $kart/textures/stk_genericMineEarth_a.png $told/albedo_earth
  whole $kart/tracks/overworld/house.png $told/albedo_house
  whole "$(find $tracks -name rock-wall-e2.png | head -n 1)" $told/albedo_rock_wall
  whole $kart/library/stklib_autumnTree_d/tree_d.png $told/foliage_autumn
  whole $kart/textures/stk_generic_dirtRoad_a_Normal.png $told/normals_dirt
  whole $kart/textures/stk_solarPanel_a_Normal.png $told/normals_panel
  whole $kart/karts/nolok/nolok_PbrData.png $told/mask_nolok
  whole $kart/tracks/snowtuxpeak/snowsky_n.jpg $told/sky_snow
  whole $kart/textures/skybox/generic_dark_skybox_east.png $told/sky_dark
  whole $hog/Forts/CastleL.png $told/sprite_castle
  whole $sky/skycultures/belarusian/the-goose_s-way.png $told/art_goose
  whole $sky/nebulae/default/m51-vasey.png $told/photo_m51
  make_pam $chosen $told
  make_normals $kart/textures/stk_generic_dirtRoad_a_Normal.png $kart/textures/stk_solarPanel_a_Normal.png \
    $kart/library/hd_metalWoodOldChest_a/hd_metalWoodOldChest_a_DefaultMaterial_Normal.png \
    $kart/library/hd_modernStreetLamp_a/hd_modernStreetLamp_a_Normal.png
}

make_normals() {  # FILE..
  local file name
  mkdir -p full_normals
  for file; do
    name=full_normals/$(basename "$file" .png)
    is_there "$file" "$name" || continue
    convert "$file" -alpha off -depth 8 PNG24:"$name.png"
    "$convert_picture" --normal "$name.png" "$name.pam"
  done
}

if [ "$set_name" = full ]; then
  make_full
  exit $status
fi
mkdir -p chosen told

# Chosen by.
fetch mate-backgrounds extremetuxracer-data neverball-data minetest-data adwaita-icon-theme
nature=packages/mate-backgrounds/usr/share/backgrounds/mate/nature
terrains=packages/extremetuxracer-data/usr/share/games/etr/terrains
font=/usr/share/fonts/truetype/dejavu/DejaVuSans.ttf
words='Sphinx of black quartz, judge my vow. Pack my box with five dozen liquor jugs. 0123456789 The five boxing wizards jump quickly. How vexingly quick daft zebras jump! Waltz, bad nymph, for quick jigs vex.'
square $nature/YellowFlower.jpg chosen/photo_flower
square $nature/Garden.jpg chosen/photo_garden
square $nature/Wood.jpg chosen/photo_wood
square $nature/LadyBird.jpg chosen/photo_ladybird
square $terrains/rock02.png chosen/albedo_rock
square $terrains/pebbles04.png chosen/albedo_pebbles
square packages/neverball-data/usr/share/games/neverball/shot-easy/maze.jpg chosen/render_maze
slopes chosen/albedo_rock chosen/normals_rock
slopes chosen/photo_wood chosen/normals_wood
tiles packages/minetest-data 'default_*.png' '16x16!' 16 chosen/sprites
tiles packages/adwaita-icon-theme/usr/share/icons/Adwaita/32x32 '*.png' '32x32!' 8 chosen/icons
lettering "$words" chosen/text -background white -fill black -pointsize 17
lettering "$words" chosen/text_alpha -background none -fill '#F4E2B0' -pointsize 22

# Told of.
fetch python3-skimage lomiri-wallpapers-20.04 ukui-wallpapers glmark2-data colobot-common-textures crawl-tiles-data pingus-data kdenlive-data
photos=packages/python3-skimage/usr/lib/python3/dist-packages/skimage/data
textures=packages/glmark2-data/usr/share/glmark2/textures
colobot=packages/colobot-common-textures/usr/share/games/colobot/textures
square $photos/astronaut.png told/photo_astronaut
square $photos/rocket.jpg told/photo_launch
square packages/lomiri-wallpapers-20.04/usr/share/backgrounds/Kleiber_by_Lukas_Baubkus.jpg told/photo_nuthatch
square $textures/crate-base.png told/albedo_crate
square $colobot/objects/lemt.png told/albedo_robot
crop $textures/asteroid-normal-map-tangent.png 170 640 told/normals_asteroid
colour_and_alpha told/normals_asteroid
square $textures/terrain-grasslight-512-nm.jpg told/normals_grass
two_channels told/normals_grass
crop packages/crawl-tiles-data/usr/share/crawl/dat/tiles/main.png 256 512 told/sprites_dungeon
tiles packages/pingus-data/usr/share/games/pingus/data/images/groundpieces/ground/sweets '*.png' 64x64 4 told/sprites_sweets
square $textures/jellyfish-caustics-01.png told/mask_caustics
crop packages/kdenlive-data/usr/share/doc/HTML/en/kdenlive/kdenlive_quickstart-mainwindow.png 0 0 told/text_window
square $colobot/interface/intro2.png told/render_island
square packages/ukui-wallpapers/usr/share/backgrounds/fluent-color.png told/gradient_waves
noise told/noise

make_pam chosen told
exit $status
